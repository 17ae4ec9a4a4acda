#!/usr/bin/env bash
# Measures the publisher: what one publication costs, with the making of its value and its cut, and
# what one snapshot costs, with nobody else at work.
#
#   bench/publisher.sh [N]
#
# Runs `bench publish` and `bench snapshot` N times each (1,000,000), ROUNDS times (5), and prints the
# least processor time of a call in nanoseconds, without the start of the program.
set -euo pipefail

number=${1:-1000000}
rounds=5
. "$(dirname "$0")/measure.sh"

for call in publish snapshot; do
    for _ in $(seq "$rounds"); do
        run "$call" "$call" "$number"
        run "$call.once" "$call" 1
    done
    awk -v call="$call" -v a="$(least "$call")" -v b="$(least "$call.once")" -v n="$number" \
        'BEGIN { printf "%s: %.0f ns\n", call, (a - b) * 1000000 / n }'
done
