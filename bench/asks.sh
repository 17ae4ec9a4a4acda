#!/usr/bin/env bash
# Measures what the replies of queries cost beyond the reading of the stream, in instructions.
#
#   bench/asks.sh [PREFIXES]
#
# The stream is that of one peer with so many IPv4 prefixes (1,000,000), and a fifth as many of IPv6 (`bench/table`). Each query
# is asked of it by `replay` under valgrind. Prints how many lines it tells, or the number that `count` tells; its instructions
# in millions beyond those of `cut`, which reads the same and tells no row; and how many times those of `count` and of `table`
# these are. They are the same in each run, on a busy machine too.
set -euo pipefail

prefixes=${1:-1000000}
rounds=1
program=bmpstation
. "$(dirname "$0")/measure.sh"

"$(dirname "$0")/table" "$prefixes" 7 >"$work/stream"

# The instructions of a query, in millions.
instructions() {
    valgrind --tool=callgrind --callgrind-out-file=/dev/null "$ours" replay "$@" 2>&1 >/dev/null <"$work/stream" |
        awk '/Collected :/ { printf "%d\n", $NF / 1000000 }'
}

# How many lines are told, or the number that `count` tells.
told() {
    "$ours" replay "$@" <"$work/stream" | awk '$1 == "count" { n = $2 } $1 == "end" && n == "" { n = $2 } END { print n }'
}

reading=$(instructions cut)
count=$(($(instructions count) - reading))
table=$(($(instructions table) - reading))
printf '%-40s %9s %14s %9s %9s\n' query told instructions count table
for words in count table "full marks" "count family 4" \
    "count through 1005" "count through 64500" "count through 64500,1005,9327" "table through 1005" \
    "count community 64500:1234" "table community 64500:1234" "count other 32" "steps table router 0" "changes 0 0" \
    "full table" "full table community 64500:1234" "full changes 0 0"; do
    read -ra asked <<<"$words"
    spent=$(($(instructions "${asked[@]}") - reading))
    awk -v w="$words" -v r="$(told "${asked[@]}")" -v s="$spent" -v c="$count" -v t="$table" \
        'BEGIN { printf "%-40s %9d %14d %9.2f %9.2f\n", w, r, s, s / c, s / t }'
done
