#!/usr/bin/env bash
# Measures a route table: sorted runs, of which a new table is made for each read, beside an ordered map
# of std that is changed in place.
#
#   bench/routes.sh [PREFIXES]
#
# So many IPv4 prefixes (1,000,000) are announced, five with the same attributes, in prefix order and
# shuffled, 2,500 for each new table; then each is looked up. The map takes a number for each. They run in
# turn, ROUNDS times (5), with runs that do nothing. A ratio is that of least processor times, below 1 where
# the runs are the faster. Bytes a prefix are of peak memory, by the `time` of GNU, without what a run takes
# that does nothing, and without the 4 bytes of the number; those of the runs are with the attributes.
set -euo pipefail

prefixes=${1:-1000000}
rounds=5
. "$(dirname "$0")/measure.sh"

for _ in $(seq "$rounds"); do
    run none runs 0
    for order in runs:map runs_shuffled:map_shuffled; do
        run "${order%:*}" "${order%:*}" "$prefixes"
        run "${order#*:}" "${order#*:}" "$prefixes"
        # Both hold and find as many.
        diff <(head -n 2 "$work/${order%:*}.said") <(head -n 2 "$work/${order#*:}.said")
    done
done

echo "prefixes $prefixes"
for order in runs:map runs_shuffled:map_shuffled; do
    a=$(least "${order%:*}")
    b=$(least "${order#*:}")
    echo "${order%:*} $a ms, ${order#*:} $b ms"
    awk -v a="$a" -v b="$b" 'BEGIN { printf "ratio %.2f\n", a / b }'
    awk -v t="$(peak "${order%:*}")" -v m="$(peak "${order#*:}")" -v e="$(peak none)" -v n="$prefixes" \
        'BEGIN { printf "bytes a prefix %.1f, map %.1f\n", (t - e) * 1024 / n - 4, (m - e) * 1024 / n - 4 }'
done
