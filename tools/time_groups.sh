#!/bin/bash
# Times operations of groups and of the union-find, proved (crates/time_groups/out/time_groups) and written by hand without contracts
# (tools/groups_bench.rs), and prints nanoseconds per operation and their ratio. Both make the same calls in the same order, and must
# print the same results. Of each time, the least of three runs counts, less the time of as many runs of nothing; of relate, less
# that of starting the program. Run `rt run` in crates/time_groups first.
set -euo pipefail
cd "$(dirname "$0")/.."
work=$(mktemp -d)
trap 'rm -rf "$work"' EXIT
rustc -C opt-level=3 --edition 2021 -o "$work/plain" tools/groups_bench.rs
proved=crates/time_groups/out/time_groups

# seconds PROGRAM OPERATION COUNT: the least of three runs; the result goes to $work/result.
seconds() {
    local least=999 taken TIMEFORMAT=%R
    for _ in 1 2 3; do
        taken=$( { time "$1" <<< "$2 $3" > "$work/result"; } 2>&1 )
        least=$(echo "$taken $least" | awk '{ print ($1 < $2) ? $1 : $2 }')
    done
    echo "$least"
}

# compare OPERATION COUNT COUNT-OF-NOTHING CALLS: so many calls are made in each run of the operation.
compare() {
    local a b a0 b0
    a=$(seconds "$proved" "$1" "$2"); mv "$work/result" "$work/proved"
    b=$(seconds "$work/plain" "$1" "$2")
    cmp -s "$work/result" "$work/proved" || { echo "$1: the results differ"; exit 1; }
    a0=$(seconds "$proved" nothing "$3")
    b0=$(seconds "$work/plain" nothing "$3")
    echo "$1 $2 $a $b $a0 $b0 $4" | awk '{
        p = ($3 - $5) * 1e9 / $2 / $7; q = ($4 - $6) * 1e9 / $2 / $7
        printf "%-18s %8.1f ns %8.1f ns %6.1f\n", $1, p, q, p / q
    }'
}

printf '%-18s %11s %11s %6s\n' operation proved by-hand ratio
compare compose 100000000 100000000 1
compare inverse 100000000 100000000 1
compare image 100000000 100000000 8
compare lawful 100000000 100000000 1
compare relation-tick 50000000 50000000 1
compare relation-renaming 40000000 40000000 1
compare relate-tick 25500000 0 1
compare relate-renaming 12750000 0 1
compare falling-tick 5100000 0 1
compare falling-renaming 1275000 0 1
