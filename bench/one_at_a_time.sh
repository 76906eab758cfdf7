#!/usr/bin/env bash
# That one process at a time has a folder: while another holds its lock the program answers `folder-fault unchanged` and
# changes nothing, and once the other was killed it goes on. The other is flock of util-linux, which takes the same lock.
set -eu

top=$(dirname -- "$(dirname -- "$(readlink -f -- "$0")")")
work=$(mktemp -d)
trap 'rm -rf "$work"' EXIT
mkdir -p "$work/folder" "$work/source/f"
printf 'units.0.id=a\nunits.0.version=1.0.0\n' >"$work/source/f/p2.inf"

# What an install prints, and its status.
install() {
    local status=0
    "$top/p2" "$work/folder" "$work/source" install -p ide a || status=$?
    echo "status $status"
}

wanted() {
    diff <(printf '%s\n' "${@:2}") <(echo "$1") || { echo 'one_at_a_time: failed'; exit 1; }
}

flock --no-fork "$work/folder" sleep 600 &
other=$!
until [[ $(flock -n "$work/folder" true; echo $?) == 1 ]]; do sleep 0.1; done
wanted "$(install)" 'folder-fault unchanged' 'status 9'
wanted "$(ls -A "$work/folder")" ''
kill -KILL "$other"
wait "$other" 2>/dev/null || true
wanted "$(install)" 'plan ide 1' 'add a/1.0.0' 'done ide 1' 'status 0'
# Of many at once exactly one has the folder at a time, so those that print `done` are as many as the states.
rm -rf "$work/folder"
for number in 1 2 3 4 5 6 7 8; do
    (install >"$work/out.$number") &
done
wait
done=$(cat "$work"/out.* | grep -c '^done ' || true)
[[ $done -le 1 ]] || { echo "one_at_a_time: $done of 8 printed done"; exit 1; }
echo "one at a time: $done of 8 at once printed done"
