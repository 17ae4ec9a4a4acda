#!/usr/bin/env bash
# Measures the table of prefixes: a trie, beside an ordered map of std with the same prefixes.
#
#   bench/tries.sh [PREFIXES]
#
# Both are filled with so many IPv4 prefixes (1,000,000) and asked for each, in prefix order and
# shuffled. They run in turn, ROUNDS times (7), with runs that do nothing, and runs that also ask the
# trie for the longest match of an address for each. A ratio is that of least processor times, below 1
# where the trie is the faster. A time includes the list of the prefixes' numbers, and its shuffle; that
# of a longest match is the difference of two runs. Bytes a prefix are of peak memory, by the `time` of
# GNU, without what a run takes that does nothing, and without the 4 bytes of the number.
set -euo pipefail

prefixes=${1:-1000000}
rounds=7
. "$(dirname "$0")/measure.sh"

for _ in $(seq "$rounds"); do
    run none trie 0 0
    for order in trie:map shuffled:map_shuffled; do
        trie=${order%:*}
        run "$trie" "$trie" "$prefixes" 0
        run "${order#*:}" "${order#*:}" "$prefixes"
        run "$trie.longest" "$trie" "$prefixes" 1
        # Both hold and find the same.
        diff <(head -n 3 "$work/$trie.said") "$work/${order#*:}.said"
    done
done

echo "prefixes $prefixes"
empty=$(peak none)
for order in trie:map shuffled:map_shuffled; do
    trie=${order%:*}
    map=${order#*:}
    a=$(least "$trie")
    b=$(least "$map")
    c=$(least "$trie.longest")
    echo "$trie $a ms, $map $b ms, $trie with longest $c ms"
    awk -v a="$a" -v b="$b" 'BEGIN { printf "ratio %.2f\n", a / b }'
    awk -v a="$a" -v c="$c" -v n="$prefixes" \
        'BEGIN { printf "longest %d ns a call\n", (c - a) * 1000000 / n }'
    awk -v t="$(peak "$trie")" -v m="$(peak "$map")" -v e="$empty" -v n="$prefixes" \
        'BEGIN { printf "bytes a prefix %.1f, map %.1f\n", (t - e) * 1024 / n - 4, (m - e) * 1024 / n - 4 }'
done
