#!/usr/bin/env bash
# What reading a source of 60,000 units costs: in 300 files, made by a fixed rule, each unit with four requirements and
# two provided rows. Prints the time of the program over it against that of sha256sum over the same files, the growth
# over ten times the units, and the peak memory in megabytes. Times are compared within one run only.
set -eu
top=$(dirname -- "$(dirname -- "$(readlink -f -- "$0")")")
work=$(mktemp -d)
trap 'rm -rf "$work"' EXIT

# A source of so many units, 200 in each file: unit K requires units K+1 to K+4.
make_source() {
    awk -v folder="$1" -v units="$2" 'BEGIN {
        for (unit = 0; unit < units; unit++) {
            if (unit % 200 == 0) {
                if (file) close(file)
                path = sprintf("%s/f%d", folder, unit / 200)
                system("mkdir -p " path)
                file = path "/p2.inf"
            }
            key = sprintf("units.%d.", unit % 200)
            printf "%sid=u%d\n%sversion=1.0.%d\n", key, unit, key, unit % 7 > file
            for (row = 0; row < 4; row++) {
                printf "%srequires.%d.namespace=n\n%srequires.%d.name=u%d\n", key, row, key, row, unit + row + 1 > file
                printf "%srequires.%d.range=[1.0.0,2.0.0)\n", key, row > file
            }
            for (row = 0; row < 2; row++)
                printf "%sprovides.%d.namespace=n\n%sprovides.%d.name=u%d.%d\n", key, row, key, row, unit, row > file
        }
    }'
}

# Milliseconds of a command's run.
milliseconds() {
    local start
    start=$(date +%s%N)
    "$@" >/dev/null
    echo $((($(date +%s%N) - start) / 1000000 + 1))
}

# The program reads the whole source and then ends, since it has no such unit.
reading() {
    "$top/p2" "$work/folder" "$1" install -p ide nothing >"$work/out" || true
    grep -q '^unknown nothing$' "$work/out" || { cat "$work/out"; exit 1; }
}

hashing() {
    find "$1" -name p2.inf -print0 | xargs -0 sha256sum
}

make_source "$work/few" 6000
make_source "$work/many" 60000
reading "$work/few"
hashing "$work/many" >/dev/null
few=$(milliseconds reading "$work/few")
many=$(milliseconds reading "$work/many")
hashes=$(milliseconds hashing "$work/many")
printf 'reading 60,000 units: %d ms, %d times sha256sum, %d %% of ten times the time for 6,000\n' \
    "$many" $((many / hashes)) $((many * 10 / few))
if [ -x /usr/bin/time ]; then
    /usr/bin/time -f %M -o "$work/peak" "$top/p2" "$work/folder" "$work/many" install -p ide nothing >/dev/null || true
    printf 'at most %d MB of memory\n' $(($(tail -n 1 "$work/peak") / 1024))
fi
