#!/usr/bin/env bash
# Measures `archive` from a pipe, and `recall` against `replay` of the same stream.
#
#   bench/archive.sh [MEGABYTES] [FOLDER]
#
# The stream is that of one peer with a full table of 1,200,000 routes (`bench/table`), one after another, until it has
# at least so many million bytes (200): its Peer Up may come again, and drops the peer's routes. The archive stands in
# FOLDER (a temporary one), on whose disk all depends.
#
# `archive` takes the stream from a pipe, by the clock, ROUNDS times (5), each into a file of its own. Beside each run the
# disk is asked itself: a record of 65,536 bytes is written and synced, and its first byte is written and synced, 300
# times; that is what `archive` does with each read. Prints the least time and the records of `archive`, and the mean
# times of the disk. Then `recall count` of the archive and `replay count` of the stream run in turn, from files in the
# cache; prints least processor times, their ratio, and peak memories.
#
# With SYNC_US=N each sync waits N microseconds first (`slow_sync.c`), as on a slower disk.
set -euo pipefail

least_bytes=$((${1:-200} * 1000000))
rounds=5
program=bmpstation
bench=$(dirname "$0")
. "$bench/measure.sh"
folder=$(mktemp -d "${2:-$work}/archive.XXXXXX")
trap 'rm -rf "$work" "$folder"' EXIT

preload=
if [ -n "${SYNC_US:-}" ]; then
    preload=$work/slow_sync.so
    cc -O2 -shared -fPIC -o "$preload" "$bench/slow_sync.c"
fi

stream=$work/stream
"$bench/table" 1000000 7 >"$work/table"
while [ "$(stat -c %s "$stream" 2>/dev/null || echo 0)" -lt "$least_bytes" ]; do cat "$work/table" >>"$stream"; done
bytes=$(stat -c %s "$stream")

# The milliseconds that the disk takes for a record and for its first byte, each written and synced.
disk() {
    LD_PRELOAD=$preload python3 - "$folder/disk" <<'PYTHON'
import os, sys, time
file = os.open(sys.argv[1], os.O_RDWR | os.O_CREAT)
record, times = bytes(65541), 300
start = time.perf_counter()
for number in range(times):
    os.pwrite(file, record, number * 65541 + 1)
    os.fsync(file)
    os.pwrite(file, b"\1", number * 65541)
    os.fsync(file)
print(f"{(time.perf_counter() - start) * 1000 / times:.3f}")
os.unlink(sys.argv[1])
PYTHON
}

for round in $(seq "$rounds"); do
    rm -f "$folder/F"
    disk >>"$work/disk"
    start=$(date +%s%N)
    cat "$stream" | LD_PRELOAD=$preload "$ours" archive "$folder/F" >"$work/said"
    echo "$((($(date +%s%N) - start) / 1000000))" >>"$work/archived"
done
records=$((($(stat -c %s "$folder/F") - 1 - bytes) / 5))
awk -v bytes="$bytes" -v records="$records" -v t="$(sort -n "$work/archived" | head -1)" \
    'BEGIN { printf "archive: %d bytes from a pipe in %d ms, %.1f MB/s, %d records of %d bytes (at least 25 MB/s where a sync takes 1 ms)\n", bytes, t, bytes / t / 1000, records, bytes / records }'
awk '{ sum += $1; if (NR == 1 || $1 < least) least = $1 } END { printf "the disk: %.2f ms a record, written and synced twice, at least %.2f ms; so %.1f MB/s in records of 65536 bytes\n", sum / NR, least, 65.536 / (sum / NR) }' "$work/disk"

for _ in $(seq "$rounds"); do
    input=/dev/null run recalled recall "$folder/F" count
    input=$stream run replayed replay count
done
cmp "$work/recalled.said" "$work/replayed.said"
awk -v a="$(least recalled)" -v b="$(least replayed)" -v m="$(peak recalled)" -v n="$(peak replayed)" \
    'BEGIN { printf "recall count: %d ms against %d of replay count, ratio %.2f (at most 1.3); %d KiB against %d\n", a, b, a / b, m, n }'
