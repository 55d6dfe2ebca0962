#!/bin/sh
# Kills `wdt copy` at random moments and lets it go on: a tree of large, small, empty and nested files is
# copied, the copy is killed by SIGKILL, `wdt plan` is read, the copy is run again, and the trees are
# compared; with 1, 4 and 16 lanes, and with batches of 64 KiB and the usual ones. What is sent again is
# counted: at most a batch, and a block of each lane. Then copies that meet a full disk, a file that can't
# be read and a destination that can't be written to: each has to end with its status and one line, leave
# all that was logged, and go on where the cause is gone. Ends with 0 only where nothing was lost or differs.
# The last part is for root alone: it mounts a small tmpfs, and runs wdt as nobody.
# usage: bench/kill.sh [FOLDER] [ROUNDS]
set -eu
here=$(CDPATH='' cd -- "$(dirname -- "$0")/.." && pwd)
. "$here/bench/common.sh"
wdt=$(program)
scratch=$(folder_below "${1:-$here/out/bench}")
rounds=${2:-200}
block=1048576

fail() {
    echo "bench/kill.sh: $1" >&2
    exit 1
}

# The tree has no byte 0: what stands at a destination is what is there and not 0.
fill() { head -c "$1" /dev/urandom | tr '\000' '\001' >"$2"; }
make_tree() {
    mkdir -p "$tree/a/b/c" "$tree/small"
    fill 50331648 "$tree/large"
    fill 7340033 "$tree/a/b/c/odd"
    for i in $(seq 300); do
        fill $((i * 37)) "$tree/small/file$i"
    done
    for i in $(seq 40); do
        : >"$tree/a/empty$i"
    done
}
tree=$scratch/tree
make_tree
total=$(find "$tree" -type f -exec cat {} + | wc -c)

# The bytes that stand at a destination, but for the log's; and those that are still to be sent.
standing() {
    [ -d "$1" ] || { echo 0; return; }
    find "$1" -type f ! -name .wlog ! -name .wlog.new -exec cat {} + | tr -d '\000' | wc -c
}
planned() {
    "$wdt" plan "$tree" "$1" --block "$block" >"$scratch/plan" || fail "no plan of $1: $(tail -n 1 "$scratch/plan")"
    sed -n 's/^bytes //p' "$scratch/plan"
}
is_same() { diff -r -x .wlog -x .wlog.new "$tree" "$1" >"$scratch/differs"; }

# Copies to a destination to the end, with the words that follow.
copy_whole() {
    "$wdt" copy "$tree" "$@" --block "$block" >"$scratch/lines" || fail "a copy ended with $(tail -n 1 "$scratch/lines")"
    [ "$(tail -n 1 "$scratch/lines")" = ok ] || fail "the last line isn't ok"
    is_same "$1" || fail "the trees differ: $(head -n 1 "$scratch/differs")"
}

# How long a whole copy takes, in milliseconds.
from=$(date +%s%N)
copy_whole "$scratch/whole" --lanes 4
whole=$((($(date +%s%N) - from) / 1000000))
rm -rf -- "$scratch/whole"

# One round: a copy that is killed, and goes on.
most=0
killed=0
round() {
    dest=$scratch/dest
    "$wdt" copy "$tree" "$dest" --lanes "$1" --batch "$2" --block "$block" >/dev/null 2>&1 &
    copy=$!
    sleep "$(awk -v r="$(random)" -v w="$whole" 'BEGIN { printf "%.3f", r / 65536 * w / 1000 }')"
    kill -KILL "$copy" 2>/dev/null || :
    if wait "$copy" 2>/dev/null; then :; else killed=$((killed + 1)); fi
    left=$(planned "$dest")
    again=$(($(standing "$dest") + left - total))
    [ "$again" -le $(($2 + $1 * block)) ] || fail "$again bytes are sent again, with $1 lanes and a batch of $2"
    [ "$again" -le "$most" ] || most=$again
    copy_whole "$dest" --lanes "$1" --batch "$2"
    [ "$(planned "$dest")" = 0 ] || fail "bytes are left behind a whole copy"
    rm -rf -- "$dest"
}

done=0
while [ "$done" -lt "$rounds" ]; do
    for lanes in 1 4 16; do
        for batch in 65536 8388608; do
            [ "$done" -lt "$rounds" ] || break 2
            round "$lanes" "$batch"
            done=$((done + 1))
        done
    done
done
echo "$done rounds, $killed killed: nothing was lost or differs; at most $most bytes were sent again"

[ "$(id -u)" = 0 ] || { echo "not root: no full disk, no file that can't be read"; exit 0; }

# A copy that has to fail: its status, its last line, and one line of what was being done.
copy_fails() {
    want=$1
    line=$2
    shift 2
    status=0
    "$@" >"$scratch/lines" 2>"$scratch/faults" || status=$?
    [ "$status" = "$want" ] || fail "status $status where $want was to come"
    [ "$(tail -n 1 "$scratch/lines")" = "$line" ] || fail "the last line is $(tail -n 1 "$scratch/lines")"
    [ "$(wc -l <"$scratch/faults")" = 1 ] || fail "not one line on standard error"
    sed 's/^/    /' "$scratch/faults"
}
as_nobody() { setpriv --reuid=65534 --regid=65534 --clear-groups "$@"; }

# A disk that is full, and then isn't.
mkdir "$scratch/disk"
mounted=$scratch/disk
mount -t tmpfs -o size=16m wdt-kill "$mounted"
copy_fails 3 'disk fault' "$wdt" copy "$tree" "$scratch/disk/dest" --block "$block"
planned "$scratch/disk/dest" >/dev/null
mount -o remount,size=128m "$scratch/disk"
copy_whole "$scratch/disk/dest"
umount "$mounted"
mounted=

# A file that can't be read, and then can; a destination that can't be written to, and then can.
chmod 0755 "$scratch"
mkdir "$scratch/nobodys"
chmod 0777 "$scratch/nobodys"
chmod 0000 "$tree/a/b/c/odd"
copy_fails 2 'source fault' as_nobody "$wdt" copy "$tree" "$scratch/nobodys/dest" --block "$block"
chmod 0644 "$tree/a/b/c/odd"
mkdir "$scratch/barred"
copy_fails 3 'disk fault' as_nobody "$wdt" copy "$tree" "$scratch/barred" --block "$block"
copy_whole "$scratch/nobodys/dest"
copy_whole "$scratch/barred"
echo "a full disk, a file that can't be read and a barred destination: told, and gone on from"
