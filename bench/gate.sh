#!/usr/bin/env bash
# What the gate costs: runs `rt ci --anew` over a clone of the last commit, and prints for each crate the CPU seconds of
# its proof, its tests and its must-fail edits, and the whole. With names of crates: `rt ci NAME..`, which takes what
# passed before on this machine as it is.
# The processes of the run are looked at each second, so a figure may be some seconds too low. The clone is removed.
set -u

top=$(git -C "$(dirname -- "$(readlink -f -- "$0")")" rev-parse --show-toplevel) || exit 1
room=$(mktemp -d) || exit 1
trap 'rm -rf "$room"' EXIT
git clone --quiet "$top" "$room/clone" || exit 1

anew=()
[[ $# -gt 0 ]] || anew=(--anew)

# Session ids tell the processes of this run from all others.
begun=$(date +%s)
(cd "$room/clone" && exec setsid --wait bash -c 'echo $$ >"$0"; exec rt ci "$@"' "$room/session" ${anew[@]+"${anew[@]}"} "$@") >"$room/log" 2>&1 &
run=$!
while kill -0 "$run" 2>/dev/null; do
    [[ -s $room/session ]] && ps -s "$(<"$room/session")" -o pid=,cputimes=,args= >>"$room/samples"
    sleep 1
done
wait "$run"
status=$?
ended=$(date +%s)

# One line a sample: the process, its CPU seconds up to then, and its words. The last sample of a process counts.
awk -v order="$(sed -n 's/^\([a-z0-9_]*\)[ a-z]*:.*/\1/p' "$room/clone/crates.txt" | tr '\n' ' ')" '
    {
        seconds[$1] = $2
        if (!($1 in step) && match($0, / --crate-name [a-z0-9_]+/)) {
            crate[$1] = substr($0, RSTART + 14, RLENGTH - 14)
            step[$1] = /\/rt-edits?-/ ? "edits" : / --test( |$)/ ? "tests" : "proof"
        }
    }
    END {
        for (process in seconds) {
            if (process in step) cost[crate[process], step[process]] += seconds[process]
            else builds += seconds[process]
        }
        format = "%-18s %8s %8s %8s %8s\n"
        printf format, "CPU seconds", "proof", "tests", "edits", "all"
        count = split(order, names, " ")
        for (k = 1; k <= count; k++) {
            name = names[k]
            proof = cost[name, "proof"]; tests = cost[name, "tests"]; edits = cost[name, "edits"]
            if (proof + tests + edits == 0) continue
            printf format, name, proof + 0, tests + 0, edits + 0, proof + tests + edits
            proofs += proof; all_tests += tests; all_edits += edits
        }
        printf format, "builds and runs", "", "", "", builds + 0
        printf format, "the whole", proofs + 0, all_tests + 0, all_edits + 0, proofs + all_tests + all_edits + builds
    }
' "$room/samples"
printf '%d minutes on %d cores, status %d: %s\n' $(((ended - begun + 59) / 60)) "$(nproc)" "$status" "$(tail -n 1 "$room/log")"
exit "$status"
