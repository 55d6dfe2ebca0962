# shellcheck shell=sh
# What the scripts of this folder share; they read it in. A script works in folders that `mktemp -d`
# made below those that its caller named, $scratch and $memory, and these two are all that is removed,
# however it ends. What it started and still runs is ended by its number, and what it mounted unmounted.
runs=5
scratch=
memory=
started=
mounted=
# How many seconds anything that is started may take, and, where it is told, what `time` notes of it.
limit=240
timed=
leave() {
    for pid in $started; do
        kill "$pid" 2>/dev/null || :
        wait "$pid" 2>/dev/null || :
    done
    [ -z "$mounted" ] || umount "$mounted" 2>/dev/null || :
    rm -rf -- ${scratch:+"$scratch"} ${memory:+"$memory"}
}
trap leave EXIT
trap 'exit 129' HUP
trap 'exit 130' INT
trap 'exit 143' TERM

# The program that is measured: that of these sources, or the one that WDT names.
program() { echo "${WDT:-$("$here/wdt" --which)}"; }

# Reads a script's words, behind those that --only may name: [FOLDER] [TMPFS FOLDER] [--rounds N]
# [--only PART,PART..]. Leaves them in $folder, $tmpfs, $runs and $only.
read_words() {
    parts=$1
    shift
    only=
    folder=
    tmpfs=
    while [ $# -gt 0 ]; do
        case $1 in
        --rounds) runs=${2:?--rounds takes a number} ;;
        --only) only=$(echo "${2:?--only takes some of $parts}" | tr , ' ') ;;
        -*)
            echo "$0: the words are [FOLDER] [TMPFS FOLDER] [--rounds N] [--only PART,PART..], the parts $parts" >&2
            exit 2
            ;;
        *)
            if [ -z "$folder" ]; then folder=$1; else tmpfs=$1; fi
            shift
            continue
            ;;
        esac
        shift 2
    done
    for word in $only; do
        case " $parts " in
        *" $word "*) ;;
        *)
            echo "$0: --only takes some of $parts, not $word" >&2
            exit 2
            ;;
        esac
    done
    folder=${folder:-$here/out/bench}
    tmpfs=${tmpfs:-/dev/shm}
}

# Those words that --only names; or all, where it names none of them.
chosen() {
    found=
    for word in "$@"; do
        case " $only " in
        *" $word "*) found="$found $word" ;;
        esac
    done
    echo "${found:-$*}"
}

# What else the machine does: how many processes run on how many processors.
load() { echo "load $(cut -d ' ' -f 1-3 /proc/loadavg) on $(nproc) processors"; }

# Starts a command in the background. Below $scratch stand, by its name, its own number in NAME.pid, what it
# prints in NAME.lines and NAME.faults, and in NAME.took what $timed asks for. What bounds it has the number $!.
# shellcheck disable=SC2016 # What stands between the quotes is for the shell that becomes the command.
start() {
    name=$1
    shift
    rm -f -- "$scratch/$name.pid"
    timeout -k 5 "$limit" ${timed:+/usr/bin/time -q -o "$scratch/$name.took" -f "$timed"} \
        sh -c 'echo $$ >"$0"; exec "$@"' "$scratch/$name.pid" "$@" \
        >"$scratch/$name.lines" 2>"$scratch/$name.faults" &
    started="$started $!"
}

# Waits for the end of what was started, by the number of what bounds it, and has its status.
finish() {
    status=0
    wait "$1" || status=$?
    left=
    for pid in $started; do
        [ "$pid" = "$1" ] || left="$left $pid"
    done
    started=$left
    return "$status"
}

# Makes a new folder below another, and prints it.
folder_below() {
    mkdir -p -- "$1"
    mktemp -d -- "$1/wdt-bench.XXXXXX"
}

# Runs a command and prints how long it took, in microseconds. Its last line has to be `ok`, but for cp.
time_of() {
    from=$(date +%s%N)
    "$@" >"$scratch/lines"
    to=$(date +%s%N)
    [ "$1" = cp ] || tail -n 1 "$scratch/lines" | grep -qx ok
    echo $(((to - from) / 1000))
}

# The median of the numbers in a file.
median() { sort -n "$1" | sed -n "$(((runs + 1) / 2))p"; }

# The peak memory of a command, in KiB.
peak_of() {
    [ -x /usr/bin/time ] || { echo -; return; }
    /usr/bin/time -f %M "$@" 2>&1 >/dev/null | tail -n 1
}

# A number from 0 to 65,535.
random() { od -An -N2 -tu2 /dev/urandom | tr -d ' '; }

# The first of so many ports in a row on which nobody listens, from a random one on, below those that
# the system gives out by itself.
free_ports() {
    python3 - "$1" <<'PYTHON'
import random, socket, sys

def is_free(port):
    with socket.socket() as taken:
        try:
            taken.bind(("127.0.0.1", port))
        except OSError:
            return False
    return True

count = int(sys.argv[1])
for first in random.sample(range(10_000, 30_000, count), 100):
    if all(is_free(port) for port in range(first, first + count)):
        print(first)
        sys.exit(0)
sys.exit(1)
PYTHON
}

# Waits until somebody listens on a port, at most ten seconds, and connects to nobody.
await_port() {
    for _ in $(seq 500); do
        ! grep -q ":$(printf %04X "$1") 00000000:0000 0A" /proc/net/tcp || return 0
        sleep 0.02
    done
    return 1
}

# Trees, below $scratch. large NAME N SIZE: N files of so many bytes; small NAME N: N files of 4 KiB, 100
# to a folder; mixed NAME: three of 64 MiB, 2,000 of 4 KiB, and 100 empty ones.
large() {
    mkdir -p "$scratch/$1"
    for i in $(seq "$2"); do
        head -c "$3" /dev/urandom >"$scratch/$1/file$i"
    done
}
small() {
    head -c 4096 /dev/urandom >"$scratch/piece"
    for i in $(seq $(($2 / 100))); do
        mkdir -p "$scratch/$1/folder$i"
        for k in $(seq 100); do
            cp "$scratch/piece" "$scratch/$1/folder$i/file$k"
        done
    done
}
mixed() {
    large "$1" 3 67108864
    small "$1" 2000
    for i in $(seq 100); do
        : >"$scratch/$1/empty$i"
    done
}
