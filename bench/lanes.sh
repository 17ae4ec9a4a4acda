#!/usr/bin/env bash
# Measures the lane of a router over a port in memory, published read by read, beside another program that keeps its
# table unpublished.
#
#   bench/lanes.sh OTHER [PREFIXES]
#
# OTHER is a program that counts for `replay count` the routes that standard input leaves, as
# bench/plain/target/release/plain does (bench/plain/README.md). The stream is that of one peer with so many IPv4 prefixes
# (1,000,000), and a fifth as many of IPv6 (`bench/table`), with its UPDATEs in prefix order, and with one prefix an UPDATE;
# and that of a lane of a drill, with a million messages for 4,096 prefixes of four peers that come and go. For each, these
# run in turn, ROUNDS times (5), from a file in the cache:
#
#   quiet      takes the stream in reads of 64 KiB, and publishes after each; the client beside it does nothing
#   asks       the same, with a client that takes a snapshot after each publication
#   keeps      the same, with a client that also keeps every tenth of these for ever
#
# Each time of a line is the least of the rounds, in milliseconds, and a ratio is to that of OTHER: below 1 ours is the
# faster.
#
#   published   the clock's time of ours from the start of the lane until it closes its connection, when all of the stream
#               is published, with the client's turns. Neither the reading of the stream into memory, which comes before,
#               nor the closing, with which the lane lets go of its whole table, is in it. It is that of a quiet machine:
#               beside other work the clock counts the waiting too
#   with reading and letting go
#               the processor time of our whole run, which holds both
#   other       the processor time of OTHER's whole run, with its reading, and with the letting go of its table if it does
#               that: a program may end without
#   longest     the longest time by the clock from the bytes of a read until all that they brought is published, with the
#               merges of the tables
#
# Bytes are of peak memory, by the `time` of GNU.
#
# Then the stream of a lane of a drill with MESSAGES messages (100,000) is taken by one lane, and by LANES lanes (64) at
# once, each with a copy of it, a thread and a client of its own, in three times as many rounds. The pace of lanes is how
# many messages they publish in a second of the clock, the mean of the runs, from the start of the lanes until the last
# of them closes its connection; and with the letting go, until all lanes have let go of their tables too. Reading the
# stream is in neither. They too are those of a quiet machine. What the machine itself has to give stands beside them: as
# many programs of one lane at once as there are processors, the sum of their paces, and which part of it the lanes have.
set -euo pipefail

other=${1:?usage: bench/lanes.sh OTHER [PREFIXES], OTHER such as bench/plain/target/release/plain}
prefixes=${2:-1000000}
rounds=5
. "$(dirname "$0")/measure.sh"

# The number behind a word that a run said.
said() { awk -v w="$2" '$1 == w { print $2 }' "$work/$1.said"; }

measure() {
    local order=$1
    input=$work/stream
    for _ in $(seq "$rounds"); do
        spend "$order.other" "$other" replay count
        for client in quiet asks keeps; do
            run "$order.$client" "$client" 65536 1
            said "$order.$client" taken >>"$work/$order.$client.taken"
            said "$order.$client" longest >>"$work/$order.$client.longest"
        done
    done
    echo "$order: $(said "$order.quiet" entries) entries, $(stat -c %s "$input") bytes, $(said "$order.quiet" turns) publications"
    for client in quiet asks keeps; do
        awk -v c="$client" -v t="$(least "$order.$client.taken")" -v a="$(least "$order.$client")" \
            -v b="$(least "$order.other")" -v m="$(peak "$order.$client")" -v n="$(peak "$order.other")" \
            -v k="$(said "$order.$client" kept)" -v l="$(least "$order.$client.longest")" \
            'BEGIN {
                printf "  %s published %.0f ms, ratio %.2f; with reading and letting go %d ms, ratio %.2f; ", c, t / 1000, t / 1000 / b, a, a / b
                printf "other %d ms; longest %.1f ms; %d KiB, other %d; %d versions kept\n", b, l / 1000, m, n, k
            }'
    done
}

here=$(dirname "$0")
"$here/table" "$prefixes" 7 >"$work/generated"
for order in sorted single; do
    "$here/reorder" "$order" <"$work/generated" >"$work/stream"
    measure "$order"
done
"$ours" stream 7 0 1000000 >"$work/stream"
measure drill

# Appends the pace of what a run said to the file of its name, and its pace with the letting go.
note_pace() {
    awk '$1 == "microseconds" { all = $2 } $1 == "taken" { taken = $2 } $1 == "messages_per_second" { pace = $2 }
        END { printf "%d %d\n", pace, pace * taken / all }' "$work/$1.said" >>"$work/$1.pace"
}

# The mean of a column of the runs of a name: the first is their pace, the second that with the letting go.
mean() { awk -v n="$2" '{ sum += $n } END { printf "%.0f", sum / NR }' "$work/$1.pace"; }

# The sum of the paces of so many programs at once, each with one lane.
side_by_side() {
    local number
    for number in $(seq "$2"); do
        "$ours" "$1" 65536 1 <"$input" >"$work/side.$number" &
    done
    wait
    cat "$work"/side.* | awk '$1 == "messages_per_second" { sum += $2 } END { print sum, sum }' >>"$work/$1.side.pace"
    rm "$work"/side.*
}

lanes=${LANES:-64}
input=$work/stream
"$ours" stream 7 0 "${MESSAGES:-100000}" >"$input"
echo "$lanes lanes at once, $(stat -c %s "$input") bytes each, $(nproc) processors"
for client in quiet asks keeps; do
    for _ in $(seq $((3 * rounds))); do
        for number in 1 "$lanes"; do
            run "$client.$number" "$client" 65536 "$number"
            note_pace "$client.$number"
        done
        side_by_side "$client" "$(nproc)"
    done
    awk -v c="$client" -v n="$lanes" -v a="$(mean "$client.1" 1)" -v b="$(mean "$client.$lanes" 1)" \
        -v d="$(mean "$client.1" 2)" -v e="$(mean "$client.$lanes" 2)" -v m="$(peak "$client.$lanes")" \
        -v p="$(nproc)" -v s="$(mean "$client.side" 1)" \
        'BEGIN {
            printf "  %s one lane %d messages a second, %d lanes %d, ratio %.2f; ", c, a, n, b, b / a
            printf "with the letting go %d and %d, ratio %.2f; %d KiB; ", d, e, e / d, m
            printf "%d programs of one lane %d, ratio %.2f, of which the lanes have %.2f\n", p, s, s / a, b / s
        }'
done
