#!/bin/sh
# Sends a tree over a bad network, of the loopback alone: between `wdt send` and `wdt recv` stands
# bench/proxy.py, which cuts connections behind random bytes, stalls, refuses, and in some runs never lets
# one lane back, or wears all of them out; and in some runs the receiver is killed by SIGKILL behind a
# random byte, up to twice, and both are started again, the sender with the next number of a session.
# With 2, 4 and 8 lanes, and batches of 64 KiB and the usual ones. A run ends with 0 at both ends and equal
# trees, or an end says that its lanes are used up (4), and a further session over a calm network ends it.
# What is sent again is counted: by a cut at most a block and what the proxy held, which is less than two
# blocks; by a kill at most a batch, and a block of each lane and of each cut. The seed is printed, and with
# it as the third word the same faults come again. Needs python3.
# usage: bench/faults.sh [FOLDER] [RUNS] [SEED]
set -eu
here=$(CDPATH='' cd -- "$(dirname -- "$0")/.." && pwd)
. "$here/bench/common.sh"
wdt=$(program)
scratch=$(folder_below "${1:-$here/out/bench}")
rounds=${2:-100}
seed=${3:-$(random)}
block=262144

fail() {
    echo "bench/faults.sh: run $done of seed $seed ($style, $lanes lanes, batch $batch): $1" >&2
    for name in send recv proxy; do
        tail -n 3 "$scratch/$name.lines" "$scratch/$name.faults" >&2 || :
    done
    exit 1
}

# The tree has no byte 0: what stands at a destination is what is there and not 0.
fill() { head -c "$1" /dev/urandom | tr '\000' '\001' >"$2"; }
tree=$scratch/tree
mkdir -p "$tree/a/b/c" "$tree/small"
fill 18874368 "$tree/large"
fill 3145729 "$tree/a/b/c/odd"
for i in $(seq 200); do
    fill $((i * 37)) "$tree/small/file$i"
done
for i in $(seq 20); do
    : >"$tree/a/empty$i"
done
total=$(find "$tree" -type f -exec cat {} + | wc -c)

# The bytes that stand at the destination, but for the log's; and those that are still to be sent.
standing() {
    [ -d "$dest" ] || { echo 0; return; }
    find "$dest" -type f ! -name .wlog ! -name .wlog.new -exec cat {} + | tr -d '\000' | wc -c
}
planned() {
    "$wdt" plan "$tree" "$dest" --block "$block" >"$scratch/plan" || fail "no plan: $(tail -n 1 "$scratch/plan")"
    sed -n 's/^bytes //p' "$scratch/plan"
}
is_same() { diff -r -x .wlog -x .wlog.new "$tree" "$dest" >"$scratch/differs"; }

# The number that stands behind a word in what a command printed.
told() { sed -n "s/^$2 //p" "$scratch/$1.lines"; }

# One session by a style of the proxy's, in which the receiver may be killed behind so many bytes. Leaves
# both ends' statuses in $sent and $received.
session() {
    number=$((number + 1))
    start recv "$wdt" recv "$dest" 127.0.0.1 "$to" --lanes "$lanes" --batch "$batch"
    recv=$!
    start proxy python3 "$here/bench/proxy.py" "$seed/$done/$number" "$1" "$from" "$to" "$lanes" \
        ${2:+"$scratch/recv.pid" "$2"}
    proxy=$!
    start send "$wdt" send "$tree" 127.0.0.1 "$from" --lanes "$lanes" --block "$block" --session "$number"
    send=$!
    sent=0
    finish "$send" || sent=$?
    kill -TERM "$proxy"
    received=0
    finish "$recv" || received=$?
    finish "$proxy" || fail 'the proxy failed'
    cuts=$(told proxy cuts)
    all_cuts=$((all_cuts + cuts))
    all_stalls=$((all_stalls + $(told proxy stalls)))
    all_refusals=$((all_refusals + $(told proxy refusals)))
    closed=$(told recv closed)
    all_closed=$((all_closed + ${closed:-0}))
    sessions=$((sessions + 1))
    # Who says that all is there has it there.
    if [ "$sent" = 0 ] || [ "$received" = 0 ]; then
        is_same || fail "an end says ok, and the trees differ: $(head -n 1 "$scratch/differs")"
    fi
}

# Whether the last session ended well at both ends. An end may else say that its lanes are used up.
is_done() {
    case "$sent $received" in
    '0 0') return 0 ;;
    '0 4' | '4 0' | '4 4') return 1 ;;
    *) fail "the sender ended with $sent, the receiver with $received" ;;
    esac
}

# What a session without a kill sent more often than once: what went down less what landed, and less what
# the frames have.
count_cuts() {
    landed=$(told recv bytes)
    [ -n "$landed" ] || return 0
    again=$(($(told proxy down) - landed - 65536))
    [ "$again" -le $((cuts * 2 * block)) ] || fail "$again bytes were sent again behind $cuts cuts"
    [ "$cuts" = 0 ] || [ $((again / cuts)) -le "$most_by_cut" ] || most_by_cut=$((again / cuts))
}

# A session whose receiver is killed behind a random byte of those that are still to be sent.
kill_one() {
    left=$(planned)
    [ "$left" -gt 0 ] || return 0
    stale=$(($(standing) + left - total))
    session "$1" $((1 + $(random) * left / 65536))
    [ "$received" = 137 ] || { is_done || :; return 0; }
    killed=$((killed + 1))
    [ "$sent" = 4 ] || [ "$sent" = 0 ] || fail "the sender of a killed receiver ended with $sent"
    # What stands and isn't logged, less what an earlier session left so.
    again=$(($(standing) + $(planned) - total - stale))
    [ "$again" -le $((batch + (lanes + cuts) * block)) ] || fail "$again bytes are sent again behind a kill"
    [ "$again" -le "$most_by_kill" ] || most_by_kill=$again
}

# One run, whatever it takes: at most two kills, a session by the style, and a calm one.
run() {
    dest=$scratch/dest
    number=0
    case $style in
    kill-calm | kill-bad)
        kill_one "${style#kill-}"
        kill_one "${style#kill-}"
        session calm
        ;;
    *) session "$style" ;;
    esac
    count_cuts
    if ! is_done; then
        used_up=$((used_up + 1))
        session calm
        is_done || fail "over a calm network the sender ended with $sent, the receiver with $received"
    fi
    [ "$(planned)" = 0 ] || fail 'bytes are left behind a whole transfer'
    rm -rf -- "$dest"
}

# The style of a run: of ten runs five are bad, one bars a lane, one wears all lanes out, three are killed;
# and of a hundred, two leave a lane to nobody, which takes two minutes.
style_of() {
    case $1 in
    *49 | *99) echo gone ;;
    *3) echo bar ;;
    *6) echo worn ;;
    *1 | *7) echo kill-calm ;;
    *4) echo kill-bad ;;
    *) echo bad ;;
    esac
}

done=0
sessions=0
killed=0
used_up=0
all_cuts=0
all_stalls=0
all_refusals=0
all_closed=0
most_by_cut=0
most_by_kill=0
from=$(free_ports 16)
to=$((from + 8))
echo "seed $seed"
while [ "$done" -lt "$rounds" ]; do
    style=$(style_of "$done")
    case $((done % 3)) in
    0) lanes=2 ;;
    1) lanes=4 ;;
    2) lanes=8 ;;
    esac
    case $((done / 10 % 2)) in
    0) batch=65536 ;;
    1) batch=8388608 ;;
    esac
    run
    done=$((done + 1))
done
echo "$done runs in $sessions sessions: $all_cuts cuts, $all_stalls stalls, $all_refusals refusals, $killed kills"
echo "$all_closed lanes were closed; in $used_up runs an end's lanes were used up, and a further session ended it"
echo "nothing was lost or differs; sent again: at most $most_by_cut bytes by a cut, in the mean of a run; at most $most_by_kill by a kill"
