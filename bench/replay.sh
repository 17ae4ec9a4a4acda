#!/usr/bin/env bash
# Measures `check` and the queries of `replay` on a large table, beside another program.
#
#   bench/replay.sh OTHER [PREFIXES]
#
# OTHER is a program that takes the same words and writes the same bytes, as bench/plain/target/release/plain does
# (bench/plain/README.md). The stream is that of one peer with so many IPv4 prefixes (1,000,000), and a fifth as many
# of IPv6 (`bench/table`). It comes with its UPDATEs in prefix order, and shuffled. The two run in turn on one
# stream, from a file in the cache, with their output to /dev/null. A round has each command once, in an order drawn
# from its number, and there are ROUNDS (5): a busy minute of the host, or memory that the program before has left,
# then doesn't fall on one command alone. Prints for each command the
# least processor times and the peak memories, and their ratios: below 1 ours is the better. The prefix, the
# address and the origin that are asked for stand in the stream, in the middle of its IPv4 prefixes. The bytes
# of the two are compared for each command, and for more of them that aren't measured. At the end come the
# peak memory of `check` on the stream once, twice and four times over, and what a relayed row costs: the
# processor time and the peak memory of `relay` beyond those of `replay count`, which has the same tables.
set -euo pipefail

other=${1:?usage: bench/replay.sh OTHER [PREFIXES], OTHER such as bench/plain/target/release/plain}
prefixes=${2:-1000000}
rounds=5
program=bmpstation
. "$(dirname "$0")/measure.sh"

output=/dev/null
"$(dirname "$0")/table" "$prefixes" 7 >"$work/generated"

# Both answer, and write the same.
same() {
    "$ours" "$@" <"$input" >"$work/ours.said"
    "$other" "$@" <"$input" >"$work/other.said"
    cmp "$work/ours.said" "$work/other.said"
}

# The name under which the runs of these words are kept.
kept() {
    local name="$order $*"
    echo "${name//[ \/]/.}"
}

measure() {
    local name
    name=$(kept "$@")
    run "$name.ours" "$@"
    spend "$name.other" "$other" "$@"
}

compare() {
    local name
    name=$(kept "$@")
    same "$@"
    awk -v w="$*" -v a="$(least "$name.ours")" -v b="$(least "$name.other")" -v m="$(peak "$name.ours")" -v n="$(peak "$name.other")" \
        'BEGIN { printf "%s: %d ms against %d, ratio %.2f; %d KiB against %d, ratio %.2f\n", w, a, b, a / b, m, n, m / n }'
}

# The row in the middle of those of a family, of OTHER's table, as its peer, view, prefix and path.
middle() {
    awk -v colon="$1" '
        $1 == "route" && ($5 ~ /:/) == colon { row[n++] = $3 " " $4 " " $5 " " $8 }
        END { print row[int(n / 2)] }' "$work/table"
}

for order in sorted shuffled; do
    input=$work/$order
    "$(dirname "$0")/reorder" "$order" <"$work/generated" >"$input"
    "$other" replay table <"$input" >"$work/table"
    read -r peer view prefix path < <(middle 0)
    read -r _ _ prefix6 path6 < <(middle 1)
    origin=${path##*[=_]}
    echo "$order: stream of $(stat -c %s "$input") bytes"

    commands=("check" "replay count" "replay table" "replay cut" "replay peers" "replay routers"
        "replay match ${prefix%/*}" "replay prefix $prefix" "replay within ${prefix%%.*}.0.0.0/8" "replay origin $origin")
    for round in $(seq "$rounds"); do
        while read -ra words; do
            measure "${words[@]}"
        done < <(printf '%s\n' "${commands[@]}" | awk -v seed="$round" 'BEGIN { srand(seed) } { print rand() "\t" $0 }' | sort | cut -f 2-)
    done
    for command in "${commands[@]}"; do
        read -ra words <<<"$command"
        compare "${words[@]}"
    done

    same replay marks
    same replay stats "$peer"
    same replay match "${prefix6%/*}"
    same replay prefix "$prefix6"
    same replay within "${prefix6%%:*}::/16"
    same replay origin "${path6##*[=_]}"
    same replay count peer "$peer" view "$view" family 6
    same replay table router 0 family 6
    same replay table router 1
done

# The Initiation and the Peer Up may come again, so the stream follows itself.
input=$work/stream
for times in 1 2 4; do
    : >"$input"
    for _ in $(seq "$times"); do cat "$work/generated" >>"$input"; done
    run "check.$times" check
    echo "check of the stream $times times over: $(least "check.$times") ms, $(peak "check.$times") KiB"
done

input=$work/generated
for _ in $(seq "$rounds"); do
    run relay relay
    run counted replay count
done
rows=$("$ours" replay count <"$input" | awk '$1 == "count" { print $2 }')
"$ours" relay <"$input" >"$work/relayed"
awk -v rows="$rows" -v a="$(least relay)" -v b="$(least counted)" -v m="$(peak relay)" -v n="$(peak counted)" -v bytes="$(stat -c %s "$work/relayed")" \
    'BEGIN { printf "relay of %d rows: %d ms, %.2f us a row beyond the %d ms of replay count; %d KiB against %d; %.0f bytes a row\n", rows, a, (a - b) * 1000 / rows, b, m, n, bytes / rows }'
