#!/bin/sh
# Times a receiver's end of one lane over a depot in memory, without a network or a sender: blocks of 4 KiB,
# of 64 KiB, and of 1 MiB, which come in 16 pieces; and twice as many of each. Prints the medians in
# milliseconds, how much longer twice the work takes, and the peak memory of the once. The blocks are those of
# crates/wdt_dock_trials, which is proved and built first.
# usage: bench/dock.sh
set -eu
here=$(CDPATH= cd -- "$(dirname -- "$0")/.." && pwd)
. "$here/bench/common.sh"
(cd "$here/crates/wdt_dock_trials" && rt run -- blocks 1 1) >&2
dock=$here/crates/wdt_dock_trials/out/wdt_dock_trials
scratch=$(folder_below "$here/out/bench")

# The medians of so many blocks of a length and of twice as many, run alternately.
compare() {
    : >"$scratch/once.times"
    : >"$scratch/twice.times"
    for _ in $(seq $runs); do
        time_of "$dock" blocks "$1" "$2" >>"$scratch/once.times"
        time_of "$dock" blocks "$(($1 * 2))" "$2" >>"$scratch/twice.times"
    done
    awk -v count="$1" -v size="$2" -v once="$(median "$scratch/once.times")" \
        -v twice="$(median "$scratch/twice.times")" -v p="$(peak_of "$dock" blocks "$1" "$2")" 'BEGIN {
        printf "%7d blocks of %6d bytes %9.1f ms  twice %9.1f ms  ratio %.2f  peak %s KiB\n",
            count, size, once / 1000, twice / 1000, twice / once, p }'
}

compare 100000 4096
compare 4096 65536
compare 256 1048576
