#!/bin/sh
# Times `wdt log` and `wdt plan` on transfer logs of 500,000 and of 1,000,000 covered spans, which rise
# in each of many files, and `wdt log` where all spans are of one file and fall, or come from 16 parts
# of it in turn; against `cp` of the first log, all of them run alternately. Prints the medians in
# milliseconds, how much longer twice the spans take, and wdt's peak memory. Needs python3 to write the
# logs.
# usage: bench/log.sh [FOLDER]
set -eu
here=$(CDPATH='' cd -- "$(dirname -- "$0")/.." && pwd)
. "$here/bench/common.sh"
wdt=$(program)
scratch=$(folder_below "${1:-$here/out/bench}")

# In $scratch/ORDER-N a log of N thousand spans of 4,096 bytes each, every other one of a file. Those
# that rise are of N sparse files, which stand in $scratch/source-N; all others are of one file.
make() {
    python3 - "$1" "$2" "$scratch/source-$2" "$scratch/$1-$2" <<'PYTHON'
import os, struct, sys

order, count, source, dest = sys.argv[1], int(sys.argv[2]), sys.argv[3], sys.argv[4]
stamp = 1_700_000_000_000_000_000
spans = 1000 * count

def named(number, size):
    name = b"file%04d" % number
    return b"F" + struct.pack(">IH", number, len(name)) + name + struct.pack(">QQ", size, stamp)

def covered(number, places):
    return b"".join(b"M" + struct.pack(">IQI", number, 8192 * k, 4096) for k in places)

def place(at):
    if order == "falling":
        return spans - 1 - at
    part, turn = at % 16, at // 16
    return part * (spans // 16) + turn

def batches():
    if order == "rising":
        for number in range(count):
            yield named(number, 8192 * 1000) + covered(number, range(1000))
    else:
        yield named(0, 8192 * spans)
        for first in range(0, spans, 1000):
            yield covered(0, (place(at) for at in range(first, first + 1000)))

if order == "rising":
    os.makedirs(source)
    for number in range(count):
        path = source + "/file%04d" % number
        with open(path, "wb") as made:
            made.truncate(8192 * 1000)
        os.utime(path, ns=(stamp, stamp))
os.makedirs(dest)
with open(dest + "/.wlog", "wb") as log:
    log.write(b"WDTL\0\1")
    for batch in batches():
        log.write(b"\1" + struct.pack(">I", len(batch)) + batch)
    log.write(b"\0")
PYTHON
}

# Each command once on the logs of N thousand spans.
run_all() {
    for order in rising falling turns; do
        time_of "$wdt" log "$scratch/$order-$1" >>"$scratch/$order-$1.times"
    done
    time_of "$wdt" plan "$scratch/source-$1" "$scratch/rising-$1" >>"$scratch/plan-$1.times"
    time_of cp "$scratch/rising-$1/.wlog" "$scratch/copy" >>"$scratch/cp-$1.times"
}

# A line of the table: half the spans, all of them, and the ratio.
compare() {
    awk -v name="$1" -v h="$(median "$scratch/$2-500.times")" -v w="$(median "$scratch/$2-1000.times")" -v p="$3" 'BEGIN {
        printf "%-12s 500,000: %8.1f ms  1,000,000: %8.1f ms  ratio %.2f  peak %s KiB\n", name, h / 1000, w / 1000, w / h, p }'
}

for count in 500 1000; do
    for order in rising falling turns; do
        make "$order" "$count"
    done
done
for _ in $(seq $runs); do
    run_all 500
    run_all 1000
done
for order in rising falling turns; do
    compare "log $order" "$order" "$(peak_of "$wdt" log "$scratch/$order-1000")"
done
compare plan plan "$(peak_of "$wdt" plan "$scratch/source-1000" "$scratch/rising-1000")"
compare cp cp -
