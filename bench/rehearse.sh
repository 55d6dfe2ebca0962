#!/bin/sh
# Times `wdt rehearse` against `cp -r` into a tmpfs, on a few large files and on many small ones, and
# on half of each. Prints the medians in milliseconds, their ratio, and wdt's peak memory.
# usage: bench/rehearse.sh [FOLDER] [TMPFS FOLDER]
set -eu
here=$(CDPATH='' cd -- "$(dirname -- "$0")/.." && pwd)
. "$here/bench/common.sh"
wdt=$(program)
scratch=$(folder_below "${1:-$here/out/bench}")
memory=$(folder_below "${2:-/dev/shm}")

# The medians of cp and wdt on a folder, run alternately, and their ratio.
compare() {
    : >"$scratch/cp.times"
    : >"$scratch/wdt.times"
    for _ in $(seq $runs); do
        time_of cp -r "$scratch/$1" "$memory/copy" >>"$scratch/cp.times"
        rm -rf "$memory/copy"
        time_of "$wdt" rehearse "$scratch/$1" >>"$scratch/wdt.times"
    done
    awk -v name="$1" -v c="$(median "$scratch/cp.times")" -v w="$(median "$scratch/wdt.times")" \
        -v p="$(peak_of "$wdt" rehearse "$scratch/$1")" 'BEGIN {
        printf "%-12s cp %8.1f ms  wdt %8.1f ms  ratio %.2f  peak %s KiB\n", name, c / 1000, w / 1000, w / c, p }'
}

large large8 8 67108864
large large4 4 67108864
small small20000 20000
small small10000 10000
for name in large4 large8 small10000 small20000; do
    compare "$name"
done
