#!/usr/bin/env bash
# Measures the tables of a lane, of which a new version is made for each read, beside another program that
# changes its table in place.
#
#   bench/tables.sh OTHER [PREFIXES]
#
# OTHER is a program that counts for `replay count` the routes that standard input leaves, as
# bench/plain/target/release/plain does (bench/plain/README.md). The stream is that of one peer with so many IPv4
# prefixes (1,000,000), and a fifth as many of IPv6 (`bench/table`). It comes with its UPDATEs in prefix order,
# shuffled, and with one prefix an UPDATE. For each, these run in turn, ROUNDS times (5), from a file in the cache:
#
#   lane       takes the stream, and makes new tables for each read of 64 KiB
#   keep       the same, and keeps every tenth version to the end
#   get        the same as lane, and LOOKS look-ups (1,000,000) of an NLRI that has a route
#   longest    the same, and LOOKS longest matches of an address
#   walk       the same, and WALKS walks (20) over all routes
#   longest pause
#              the longest time by the clock from the bytes of a read until the tables with all that they brought are
#              published (`bench quiet`, least of the rounds), with their merges
#
# A ratio is that of least processor times: below 1 `lane` is faster than OTHER, and `keep` than `lane`. Bytes
# a route are of peak memory, by the `time` of GNU, without what the program takes for an empty stream. The
# time of a look-up, and of a row of a walk, is the difference of two runs that both take the stream; that of
# a look-up includes the draw of its NLRI.
set -euo pipefail

other=${1:?usage: bench/tables.sh OTHER [PREFIXES], OTHER such as bench/plain/target/release/plain}
prefixes=${2:-1000000}
rounds=5
. "$(dirname "$0")/measure.sh"

looks=${LOOKS:-1000000}
walks=${WALKS:-20}

# The number behind a word that a run said.
said() { awk -v w="$2" '$1 == w { print $2 }' "$work/$1.said"; }

# What the difference of two least times is for each of so many, in these units of a millisecond.
each() { awk -v a="$(least "$1")" -v b="$(least "$2")" -v n="$3" -v u="$4" 'BEGIN { printf "%.2f", (b - a) * u / n }'; }

measure() {
    local order=$1
    input=$work/stream
    "$(dirname "$0")/reorder" "$order" <"$work/generated" >"$input"
    for _ in $(seq "$rounds"); do
        run "$order.lane" lane
        run "$order.keep" lane_keep
        spend "$order.other" "$other" replay count
        run "$order.seek" lane_seek 0 0
        run "$order.get" lane_seek "$looks" 0
        run "$order.longest" lane_seek 0 "$looks"
        run "$order.none" lane_walk 0
        run "$order.walk" lane_walk "$walks"
        run "$order.pause" quiet 65536 1
        said "$order.pause" longest >>"$work/$order.pauses"
    done
    # All leave as many routes, and each look-up finds one that stands.
    local routes
    routes=$(said "$order.lane" count)
    diff <(said "$order.other" count) <(echo "$routes")
    diff <(said "$order.keep" count) <(echo "$routes")
    diff <(said "$order.get" found) <(echo "$looks")
    diff <(said "$order.walk" rows) <(echo $((routes * walks)))

    echo "$order: $routes routes, $(said "$order.lane" entries) entries, $(stat -c %s "$input") bytes"
    awk -v a="$(least "$order.lane")" -v b="$(least "$order.other")" \
        'BEGIN { printf "  lane %d ms, other %d ms, ratio %.2f\n", a, b, a / b }'
    awk -v a="$(peak "$order.lane")" -v b="$(peak "$order.other")" -v c="$(peak empty.lane)" -v d="$(peak empty.other)" -v n="$routes" \
        'BEGIN { printf "  peak memory %d KiB, other %d; bytes a route %.1f, other %.1f\n", a, b, (a - c) * 1024 / n, (b - d) * 1024 / n }'
    awk -v a="$(least "$order.lane")" -v b="$(least "$order.keep")" -v c="$(peak "$order.lane")" -v d="$(peak "$order.keep")" -v k="$(said "$order.keep" kept)" \
        'BEGIN { printf "  keep %d ms, ratio %.2f; %d versions kept, %d KiB, ratio %.2f\n", b, b / a, k, d, d / c }'
    echo "  get $(each "$order.seek" "$order.get" "$looks" 1000) us, longest $(each "$order.seek" "$order.longest" "$looks" 1000) us ($(said "$order.longest" matched) matched)"
    echo "  walk $(each "$order.none" "$order.walk" $((routes * walks)) 1000000) ns a row"
    echo "  longest pause $(least "$order.pauses") us"
}

input=/dev/null
for _ in $(seq "$rounds"); do
    run empty.lane lane
    spend empty.other "$other" replay count
done
"$(dirname "$0")/table" "$prefixes" 7 >"$work/generated"
for order in sorted shuffled single; do
    measure "$order"
done
