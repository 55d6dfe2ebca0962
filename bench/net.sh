#!/bin/sh
# Times transfers over the loopback: `wdt send` to `wdt recv` with 1, 4 and 8 lanes, against `rsync -a` and
# `rsync -a --fsync` to a daemon of its own and `tar` through `nc`; one file of 1 GiB, 20,000 files of 4 KiB
# and a mixed tree, each onto the disk and onto a tmpfs, all of them run alternately. iperf3 sends as many
# bytes and stores none: that is the limit. Each run is timed twice, until both ends have ended, and until a
# `sync -f` of what stands there has returned, and its first copy is compared with the tree. Prints the
# medians in milliseconds, their ratios to `rsync -a`, and each end's processor time and peak memory, which
# is that of its largest process. --only takes the trees large, small, mixed and the places disk, tmpfs.
# Needs rsync, iperf3, nc, python3 and /usr/bin/time.
# usage: bench/net.sh [FOLDER] [TMPFS FOLDER] [--rounds N] [--only PART,PART..]
set -eu
here=$(CDPATH='' cd -- "$(dirname -- "$0")/.." && pwd)
. "$here/bench/common.sh"
read_words 'large small mixed disk tmpfs' "$@"
tools='wdt-1 wdt-4 wdt-8 rsync rsync-fsync tar iperf3'
for tool in rsync iperf3 nc python3 /usr/bin/time; do
    command -v "$tool" >/dev/null || { echo "bench/net.sh: needs $tool" >&2; exit 1; }
done
wdt=$(program)
scratch=$(folder_below "$folder")
memory=$(folder_below "$tmpfs")
limit=600
# Seconds in the program and in the kernel, and KiB.
timed='%U %S %M'

fail() {
    echo "bench/net.sh: $tool, $tree onto the $where: $1" >&2
    for name in send recv; do
        tail -n 3 "$scratch/$name.lines" "$scratch/$name.faults" >&2 || :
    done
    exit 1
}

# The configuration of a daemon that writes below a folder.
configure() {
    printf '%s\n' 'use chroot = no' 'reverse lookup = no' "log file = $scratch/rsyncd.log" \
        "uid = $(id -u)" "gid = $(id -g)" '[bench]' "path = $1" 'read only = no' >"$scratch/rsyncd.conf"
}

# Starts the end of a tool that receives into a folder, and waits until it listens.
# shellcheck disable=SC2016 # What stands between the quotes is for the shell that runs tar and nc.
receive() {
    lanes=1
    case $tool in
    wdt-*)
        lanes=${tool#wdt-}
        start recv "$wdt" recv "$1" 127.0.0.1 "$port" --lanes "$lanes"
        ;;
    rsync*)
        configure "$1"
        start recv rsync --daemon --no-detach --config="$scratch/rsyncd.conf" --address=127.0.0.1 --port="$port"
        ;;
    tar) start recv sh -c 'nc -l 127.0.0.1 "$0" | tar -C "$1" -xf -' "$port" "$1" ;;
    iperf3) start recv iperf3 -s -1 -B 127.0.0.1 -p "$port" ;;
    esac
    recv=$!
    for lane in $(seq "$lanes"); do
        await_port $((port + lane - 1)) || fail 'nobody listens'
    done
}

# Starts the end of a tool that sends a folder.
# shellcheck disable=SC2016 # As above.
send() {
    case $tool in
    wdt-*) start send "$wdt" send "$1" 127.0.0.1 "$port" --lanes "$lanes" ;;
    rsync) start send rsync -a "$1/" "rsync://127.0.0.1:$port/bench/" ;;
    rsync-fsync) start send rsync -a --fsync "$1/" "rsync://127.0.0.1:$port/bench/" ;;
    tar) start send sh -c 'tar -C "$1" -cf - . | nc -N 127.0.0.1 "$0"' "$port" "$1" ;;
    iperf3) start send iperf3 -c 127.0.0.1 -p "$port" -n "$bytes" ;;
    esac
    send=$!
}

# What an end took, into its lists: processor time in microseconds, and KiB.
note() {
    tail -n 1 "$scratch/$1.took" | awk -v cpu="$scratch/$tool.$1.cpu" -v peak="$scratch/$tool.$1.peak" '{
        print int(($1 + $2) * 1000000 + 0.5) >>cpu; print $3 >>peak }'
}

# One run of a tool into a new folder of a place. A daemon goes on until it is ended, all others end.
run() {
    port=$(free_ports 8)
    mkdir "$1/copy"
    sync -f "$1"
    receive "$1/copy"
    from=$(date +%s%N)
    send "$scratch/$tree"
    finish "$send" || fail "the sender ended with $status"
    case $tool in
    rsync*) ;;
    *) finish "$recv" || fail "the receiver ended with $status" ;;
    esac
    to=$(date +%s%N)
    sync -f "$1/copy"
    stable=$(date +%s%N)
    case $tool in
    rsync*)
        kill "$(cat "$scratch/recv.pid")"
        finish "$recv" || :
        ;;
    esac
    echo $(((to - from) / 1000)) >>"$scratch/$tool.times"
    echo $(((stable - from) / 1000)) >>"$scratch/$tool.stable"
    note send
    note recv
}

# A line of the table for a tool.
show() {
    awk -v tree="$tree" -v place="$where" -v tool="$tool" \
        -v t="$(median "$scratch/$tool.times")" -v s="$(median "$scratch/$tool.stable")" \
        -v rt="$(median "$scratch/rsync.times")" -v rs="$(median "$scratch/rsync.stable")" \
        -v sc="$(median "$scratch/$tool.send.cpu")" -v sp="$(median "$scratch/$tool.send.peak")" \
        -v rc="$(median "$scratch/$tool.recv.cpu")" -v rp="$(median "$scratch/$tool.recv.peak")" 'BEGIN {
        printf "%-6s %-6s %-12s %9.1f ms  ratio %5.2f", tree, place, tool, t / 1000, t / rt
        if (tool == "iperf3") printf "%34s", ""
        else printf "  stable %9.1f ms  ratio %5.2f", s / 1000, s / rs
        printf "  sender %5.2f s %6.1f MiB  receiver %5.2f s %6.1f MiB\n", sc / 1000000, sp / 1024, rc / 1000000, rp / 1024 }'
}

# All tools on a tree, into a place.
compare() {
    bytes=$(find "$scratch/$tree" -type f -exec cat {} + | wc -c)
    for tool in $tools; do
        rm -f -- "$scratch/$tool".*
    done
    for round in $(seq "$runs"); do
        for tool in $tools; do
            run "$1"
            [ "$round" != 1 ] || [ "$tool" = iperf3 ] || diff -r -x .wlog "$scratch/$tree" "$1/copy" >&2 || fail 'the trees differ'
            rm -rf -- "$1/copy"
        done
    done
    for tool in $tools; do
        show
    done
}

trees=$(chosen large small mixed)
places=$(chosen disk tmpfs)
for tree in $trees; do
    case $tree in
    large) large large 1 1073741824 ;;
    small) small small 20000 ;;
    mixed) mixed mixed ;;
    esac
done
load
for tree in $trees; do
    for where in $places; do
        case $where in
        disk) compare "$scratch" ;;
        tmpfs) compare "$memory" ;;
        esac
    done
done
load
