#!/usr/bin/env bash
# Measures the walk over message headers: the cutter alone, beside a program that does the same.
#
#   bench/frames.sh OTHER [MESSAGES]
#
# OTHER is a program that walks the message headers of standard input for the word `limit`, and that
# writes a stream of so many messages for the words `gen SEED LANES MESSAGES LANE`, as
# bench/plain/target/release/plain does (bench/plain/README.md). The two run in turn on one stream,
# ROUNDS times (7), from a file in the cache. The last line is the ratio of their least processor
# times: below 1 the cutter is the faster.
set -euo pipefail

other=${1:?usage: bench/frames.sh OTHER [MESSAGES], OTHER such as bench/plain/target/release/plain}
messages=${2:-1500000}
rounds=7
. "$(dirname "$0")/measure.sh"

input=$work/stream
"$other" gen 7 1 "$messages" 0 >"$input"
for _ in $(seq "$rounds"); do
    run ours frames
    spend other "$other" limit
done

# Both count the same messages and bytes.
diff <(head -n 10 "$work/ours.said") <(head -n 10 "$work/other.said")

echo "bytes $(stat -c %s "$input")"
echo "cutter $(least ours) ms, other $(least other) ms"
awk -v a="$(least ours)" -v b="$(least other)" 'BEGIN { printf "ratio %.2f\n", a / b }'
