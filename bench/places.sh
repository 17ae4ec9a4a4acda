#!/usr/bin/env bash
# Measures what one publication and one snapshot cost, by how many lanes a station has and how many clients' places.
#
#   bench/places.sh [N]
#
# Runs `bench publish`, `publish_held` (a snapshot after each publication, so that somebody holds the cut before) and
# `snapshot` N times each (200) under valgrind, with 1, 16, 64, 256 and 1,024 lanes and one place, and with one lane and as
# many places. Prints the instructions of one call, without the start of the program: they are the same in each run, on a
# busy machine too. A seat is waited for by nobody else here, so what is counted is the work of the lane alone.
set -euo pipefail

number=${1:-200}
rounds=1
. "$(dirname "$0")/measure.sh"

# The instructions of a run.
instructions() {
    valgrind --tool=callgrind --callgrind-out-file=/dev/null "$ours" "$@" 2>&1 >/dev/null |
        awk '/Collected :/ { print $NF }'
}

printf '%-14s %6s %6s %14s\n' call lanes places instructions
for call in publish publish_held snapshot; do
    for places in 1 16 64 256 1024; do
        for shape in "$places 1" "1 $places"; do
            read -r lanes askers <<<"$shape"
            once=$(instructions "$call" 1 "$lanes" "$askers")
            all=$(instructions "$call" "$((number + 1))" "$lanes" "$askers")
            printf '%-14s %6d %6d %14d\n' "$call" "$lanes" "$askers" "$(((all - once) / number))"
            [ "$places" = 1 ] && break
        done
    done
done
