#!/bin/sh
# Times `wdt copy`, with 1 and with 4 lanes, against `cp -r`, `rsync -a` and `rsync -a --fsync`: one file
# of 1 GiB, 20,000 files of 4 KiB and a mixed tree, each onto the disk and onto a tmpfs, all of them run
# alternately. Each run is timed twice: until the command has ended, and until a `sync -f` of what it made
# has returned. Prints the medians in milliseconds, their ratios to `cp`, and wdt's peak memory; and how
# much longer twice the small files take. --only takes the trees large, small, mixed and the places disk,
# tmpfs. Needs rsync.
# usage: bench/copy.sh [FOLDER] [TMPFS FOLDER] [--rounds N] [--only PART,PART..]
set -eu
here=$(CDPATH='' cd -- "$(dirname -- "$0")/.." && pwd)
. "$here/bench/common.sh"
read_words 'large small mixed disk tmpfs' "$@"
wdt=$(program)
scratch=$(folder_below "$folder")
memory=$(folder_below "$tmpfs")
tools='cp rsync rsync-fsync wdt-1 wdt-4 wdt-4-large'

# Copies the folder of a name to a new one with a tool.
copy() {
    case $1 in
    cp) cp -r "$2" "$3" ;;
    rsync) rsync -a "$2/" "$3/" ;;
    rsync-fsync) rsync -a --fsync "$2/" "$3/" ;;
    wdt-1) "$wdt" copy "$2" "$3" --lanes 1 ;;
    wdt-4) "$wdt" copy "$2" "$3" --lanes 4 ;;
    wdt-4-large) "$wdt" copy "$2" "$3" --lanes 4 --batch 268435456 ;;
    esac >"$scratch/lines"
}

# One run: appends its two times, in microseconds.
run() {
    sync -f "$3"
    from=$(date +%s%N)
    copy "$1" "$scratch/$2" "$3/copy"
    to=$(date +%s%N)
    sync -f "$3/copy"
    stable=$(date +%s%N)
    echo $(((to - from) / 1000)) >>"$scratch/$1.times"
    echo $(((stable - from) / 1000)) >>"$scratch/$1.stable"
    rm -rf -- "$3/copy"
}

# All tools on a tree, into a place; a line of the table for each.
compare() {
    for tool in $tools; do
        : >"$scratch/$tool.times"
        : >"$scratch/$tool.stable"
    done
    for _ in $(seq "$runs"); do
        for tool in $tools; do
            run "$tool" "$1" "$3"
        done
    done
    for tool in $tools; do
        awk -v tree="$1" -v place="$2" -v tool="$tool" \
            -v t="$(median "$scratch/$tool.times")" -v s="$(median "$scratch/$tool.stable")" \
            -v ct="$(median "$scratch/cp.times")" -v cs="$(median "$scratch/cp.stable")" 'BEGIN {
            printf "%-11s %-6s %-12s %9.1f ms  ratio %5.2f  stable %9.1f ms  ratio %5.2f\n", tree, place, tool, t / 1000, t / ct, s / 1000, s / cs }'
    done
}

trees=
for tree in $(chosen large small mixed); do
    case $tree in
    large)
        large one 1 1073741824
        trees="$trees one"
        ;;
    small)
        small small20000 20000
        small small10000 10000
        trees="$trees small20000 small10000"
        ;;
    mixed)
        mixed mixed
        trees="$trees mixed"
        ;;
    esac
done
load
for tree in $trees; do
    for where in $(chosen disk tmpfs); do
        case $where in
        disk) compare "$tree" disk "$scratch" ;;
        tmpfs) compare "$tree" tmpfs "$memory" ;;
        esac
    done
done
for tree in $trees; do
    peak=$(peak_of "$wdt" copy "$scratch/$tree" "$memory/copy")
    rm -rf -- "$memory/copy"
    echo "$tree: peak memory of wdt $peak KiB"
done
load
