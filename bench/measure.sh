# Sourced by the scripts beside it: runs programs and keeps what they take.
#
# The program is `bench`, or the crate that `program` names. Sets `ours`, that program, which is built
# where it isn't there, `work`, a folder that goes with the script, and `rounds`, which is ROUNDS or what
# the script sets before.

top=$(cd "$(dirname "$0")/.." && pwd)
program=${program:-bench}
rounds=${ROUNDS:-$rounds}
ours=$top/crates/$program/out/$program
[ -x "$ours" ] || (cd "$top/crates/$program" && rt run >/dev/null 2>&1) || [ -x "$ours" ]

work=$(mktemp -d)
trap 'rm -rf "$work"' EXIT

# Runs a command on the file `input`, or on nothing, under a name, and appends the processor time in
# milliseconds and the peak memory in KiB (by the `time` of GNU) to the file of that name; what it said
# stands in the file `output`, or in NAME.said.
TIMEFORMAT='%U %S'
spend() {
    local name=$1
    shift
    { time /usr/bin/time -f %M -o "$work/peak" "$@" <"${input:-/dev/null}" >"${output:-$work/$name.said}"; } 2>"$work/time"
    paste -d ' ' "$work/time" "$work/peak" |
        awk '{ printf "%d %d\n", ($1 + $2) * 1000 + 0.5, $3 }' >>"$work/$name"
}

# Runs the words of the program under a name.
run() {
    local name=$1
    shift
    spend "$name" "$ours" "$@"
}

# The least processor time and the peak memory of the runs of a name.
least() { sort -n "$work/$1" | awk 'NR == 1 { print $1 }'; }
peak() { awk '$2 > most { most = $2 } END { print most }' "$work/$1"; }
