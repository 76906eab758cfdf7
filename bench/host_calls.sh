#!/usr/bin/env bash
# How many calls of the host a folder of the source costs, beside the `close` of its description: the program reads a
# source of 20 folders and one of 220, each with a p2.inf, under strace, and the difference is divided by 200. Wanted are
# at most four. Without strace it says so and ends well.
set -eu

top=$(dirname -- "$(dirname -- "$(readlink -f -- "$0")")")
command -v strace >/dev/null || { echo 'host_calls: strace is not on the PATH'; exit 0; }
work=$(mktemp -d)
trap 'rm -rf "$work"' EXIT

# A source of so many folders, each with one unit.
make_source() {
    local number
    for ((number = 1; number <= $2; number++)); do
        mkdir -p "$1/f$number"
        printf 'units.0.id=u%d\nunits.0.version=1.0.0\n' "$number" >"$1/f$number/p2.inf"
    done
}

# The calls that read of the program, which ends with `unknown nothing`.
calls() {
    strace -f -qq -o "$work/calls" \
        -e trace=open,openat,stat,lstat,fstat,newfstatat,statx,read,pread64,getdents64,readlink,readlinkat \
        "$top/p2" "$work/folder" "$1" install -p ide nothing >"$work/out" || true
    grep -q '^unknown nothing$' "$work/out" || { cat "$work/out"; exit 1; }
    grep -c "$1" "$work/calls"
    grep -c 'read(\|pread64(' "$work/calls"
}

"$top/p2" "$work/folder" "$work" install -p ide nothing >/dev/null || true
make_source "$work/few" 20
make_source "$work/many" 220
mapfile -t few < <(calls "$work/few")
mapfile -t many < <(calls "$work/many")
named=$((many[0] - few[0]))
reads=$((many[1] - few[1]))
printf 'calls a folder: %d.%02d that name a path of it, %d.%02d reads\n' \
    $((named / 200)) $((named % 200 / 2)) $((reads / 200)) $((reads % 200 / 2))
