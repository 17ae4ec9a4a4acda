#!/usr/bin/env bash
# Measures `rov`: a file of validated payloads that is read, and a full table that is judged by it.
#
#   bench/rov.sh [PREFIXES] [PAYLOADS]
#
# The stream is that of one peer with so many IPv4 prefixes (1,000,000), and a fifth as many of IPv6 (`bench/table`). Of
# the payloads (700,000) half are those of routes of the table, and half are drawn (`bench/payloads`). The program runs
# in turn, ROUNDS times (5), from files in the cache, with its output to /dev/null. `rov` of an empty stream is the
# reading of the file. A table is judged in two runs, of all IPv4 and of all IPv6 rows, and so is what `replay within`
# takes, against which it stands. Then a hundredth of the table is judged by a file of 100,000 payloads of 0.0.0.0/0,
# each of an AS that no route has, and by a file of one of them. Prints least processor times, and peak memories.
set -euo pipefail

prefixes=${1:-1000000}
payloads=${2:-700000}
rounds=5
program=bmpstation
bench=$(dirname "$0")
. "$bench/measure.sh"

output=/dev/null
stream=$work/stream
"$bench/table" "$prefixes" 7 >"$stream"
"$bench/table" "$((prefixes / 100))" 7 >"$work/part"
"$ours" replay table <"$stream" | "$bench/payloads" "$payloads" >"$work/payloads"
"$bench/payloads" 100000 --of-one-prefix >"$work/many"
"$bench/payloads" 1 --of-one-prefix >"$work/one"

for _ in $(seq "$rounds"); do
    input=/dev/null run payloads.read rov "$work/payloads" 0.0.0.0/0
    input=$stream run payloads.4 rov "$work/payloads" 0.0.0.0/0
    input=$stream run payloads.6 rov "$work/payloads" ::/0
    input=$stream run within.4 replay within 0.0.0.0/0
    input=$stream run within.6 replay within ::/0
done

rows=$("$ours" replay count <"$stream" | awk '$1 == "count" { print $2 }')
bytes=$(stat -c %s "$work/payloads")
read -r a b c d e < <(echo "$(least payloads.read)" "$(least payloads.4)" "$(least payloads.6)" "$(least within.4)" "$(least within.6)")
awk -v n="$payloads" -v bytes="$bytes" -v t="$a" -v m="$(peak payloads.read)" \
    'BEGIN { printf "%d payloads, %d bytes, read: %d ms (at most 400); %d KiB beside the file (at most 61440)\n", n, bytes, t, m - bytes / 1024 }'
awk -v n="$rows" -v a="$a" -v b="$b" -v c="$c" -v d="$d" -v e="$e" -v m="$(peak payloads.4)" -v w="$(peak within.4)" \
    'BEGIN {
        printf "%d rows judged: %d ms without the reading, against %d ms of replay within, ratio %.2f (at most 1.2)\n", n, b + c - 2 * a, d + e, (b + c - 2 * a) / (d + e)
        printf "with it: %d ms, ratio %.2f; %d KiB against %d\n", b + c, (b + c) / (d + e), m, w
    }'
for family in 0.0.0.0/0 ::/0; do
    "$ours" rov "$work/payloads" "$family" <"$stream"
done | awk '$1 == "rov" { found[$7]++ } END { for (word in found) print word, found[word] }' | sort

for _ in $(seq "$rounds"); do
    for file in one many; do
        input=/dev/null run "$file.read" rov "$work/$file" 0.0.0.0/0
        input=$work/part run "$file.part" rov "$work/$file" 0.0.0.0/0
    done
done
awk -v a="$(least many.read)" -v b="$(least many.part)" -v c="$(least one.read)" -v d="$(least one.part)" -v rows="$((prefixes / 100))" -v n="$prefixes" \
    'BEGIN {
        printf "%d rows by 100000 payloads of one prefix: %d ms, against %d ms by one payload, without the reading\n", rows, b - a, d - c
        printf "a payload more of a prefix: %.2f ns for each row that it covers; %d rows by these payloads: %.0f s\n", (b - a - d + c) * 1e6 / rows / 1e5, n, (b - a) / rows * n / 1000
    }'
