#!/usr/bin/env bash
# ./kmc under limits of the system and on devices that fail.
#
# usage: bench/system_limits.sh
#
# Under a limit on memory (ulimit -v) or on threads (ulimit -u) an answer is right where it is the whole dump with status 0, or
# the line 'kmc: out of memory' with status 1 and nothing on standard output. On a device that fails it is the one line of that
# fault with status 1, and no line where a pipe was closed. A signal that ends the program is wrong everywhere, but for a writer to
# a closed pipe what the system does by default is right too. The dump is that of bench/count_plainly.py. The variable KMC names another program.
set -u
top=$(cd "$(dirname "$0")/.." && pwd)
work=$(mktemp -d) || exit 1
trap 'rm -rf "$work"' EXIT
chmod 755 "$work"
cp "${KMC:-$top/kmc}" "$work/kmc" || exit 1
chmod 755 "$work/kmc"
kmc=$work/kmc
out=$work/out
err=$work/err
tried=0
wrong=0

python3 "$top/bench/simulate_reads.py" 20000 100 50000 5 > "$work/reads.fastq" || exit 1
python3 "$top/bench/count_plainly.py" 25 1 < "$work/reads.fastq" > "$work/dump" || exit 1
printf '@r\nACGT\n+\nIII\n' > "$work/faulty"
chmod 644 "$work"/*.fastq "$work/faulty"

# judge NAME RIGHT: counts a try; RIGHT is 'yes' where its answer is right
judge() {
    tried=$((tried + 1))
    if [ "$2" != yes ]; then
        wrong=$((wrong + 1))
        echo "limits: $1 is wrong: status $status, $(wc -c < "$out") bytes on standard output, on standard error: $(head -c 300 "$err")"
    fi
}

# is_dump, is_line TEXT STATUS: whether the answer is the whole dump; this line alone, with this status
is_dump() {
    [ "$status" -eq 0 ] && [ ! -s "$err" ] && cmp -s "$out" "$work/dump"
}

is_line() {
    [ "$status" -eq "$2" ] && [ ! -s "$out" ] && [ "$(cat "$err")" = "$1" ] && [ "$(wc -l < "$err")" -eq 1 ]
}

# judge_limited NAME: the answer is the dump, or out of memory; counts both
judge_limited() {
    if is_dump; then
        dumps=$((dumps + 1))
        judge "$1" yes
    elif is_line 'kmc: out of memory' 1; then
        refusals=$((refusals + 1))
        judge "$1" yes
    else
        judge "$1" no
    fi
}

# ---- memory: 20 limits, each a third above the one before; the first is too little for anything but the start

for threads in 1 4; do
    limit=4000
    refusals=0
    dumps=0
    for _ in 1 2 3 4 5 6 7 8 9 10 11 12 13 14 15 16 17 18 19 20; do
        (ulimit -v "$limit" && exec timeout 120 "$kmc" -k25 -ci1 -sp$threads -sr$threads) < "$work/reads.fastq" > "$out" 2> "$err"
        status=$?
        judge_limited "memory of $limit KB, $threads threads"
        last=$limit
        limit=$((limit * 4 / 3))
    done
    if [ "$dumps" -eq 0 ] || [ "$refusals" -eq 0 ]; then
        judge "the row of memory limits, which should reach from too little to enough" no
    fi
    echo "limits: ulimit -v from 4000 to $last KB, -sp$threads -sr$threads: $refusals times out of memory, $dumps dumps"
done

# ---- threads

# few_threads LIMIT COMMAND..: runs it as a user of its own who may have so many threads
few_threads() {
    nproc=$1
    shift
    timeout 120 setpriv --reuid=54321 --regid=54321 --clear-groups prlimit --nproc="$nproc" "$@"
}

if [ "$(id -u)" -ne 0 ] || ! few_threads 8 true 2> /dev/null; then
    echo "limits: threads: skipped, since only root can take on a user of its own (setpriv, prlimit)"
elif few_threads 1 sh -c 'true & wait $!' 2> /dev/null; then
    echo "limits: threads: skipped, since the system does not keep the limit"
else
    for threads in 1 4 16; do
        refusals=0
        dumps=0
        for limit in 1 2 3 4 5 6 7 8 10 12 16 20 24 32; do
            few_threads "$limit" "$kmc" -k25 -ci1 -sp$threads -sr$threads < "$work/reads.fastq" > "$out" 2> "$err"
            status=$?
            judge_limited "a limit of $limit threads, -sp$threads -sr$threads"
        done
        echo "limits: 1 to 32 threads, -sp$threads -sr$threads: $refusals times out of memory, $dumps dumps"
    done
fi

# ---- devices that fail

# fails NAME LINE: the answer is this line with status 1
fails() {
    if is_line "$2" 1; then
        judge "$1" yes
        echo "limits: $1: '$2', status 1"
    else
        judge "$1" no
    fi
}

# ends NAME STATUS: there is no output and no message, and this is the status
ends() {
    if [ "$status" -eq "$2" ] && [ ! -s "$out" ] && [ ! -s "$err" ]; then
        judge "$1" yes
        echo "limits: $1: no message, status $2"
    else
        judge "$1" no
    fi
}

: > "$out"
"$kmc" -k25 -ci1 < "$work/reads.fastq" > /dev/full 2> "$err"
status=$?
fails "a full disk as output" 'kmc: write failed'
"$kmc" -k25 -ci1 < "$work/reads.fastq" >&- 2> "$err"
status=$?
fails "a closed output" 'kmc: write failed'
"$kmc" -k25 -ci1 < "$work/reads.fastq" 1< /dev/null 2> "$err"
status=$?
fails "an output that is open for reading only" 'kmc: write failed'
"$kmc" -k25 < / > "$out" 2> "$err"
status=$?
fails "a directory as input" 'kmc: read failed'
"$kmc" -k25 <&- > "$out" 2> "$err"
status=$?
fails "a closed input" 'kmc: read failed'
"$kmc" -k25 0> "$work/none" > "$out" 2> "$err"
status=$?
fails "an input that is open for writing only" 'kmc: read failed'
# descriptor 0 is a pipe that is held open, holds no byte, and does not wait for one
python3 -c 'import os, sys
given, held = os.pipe()
os.set_blocking(given, False)
os.dup2(given, 0)
os.set_inheritable(held, True)
os.execv(sys.argv[1], ["kmc", "-k25"])' "$kmc" > "$out" 2> "$err"
status=$?
fails "an input that does not wait" 'kmc: read failed'
"$kmc" -k25 < /dev/null > "$out" 2> "$err"
status=$?
ends "an empty input" 0
"$kmc" -k25 < /dev/null > /dev/full 2> "$err"
status=$?
ends "an empty input and a full disk, to which nothing is written" 0
: > "$err"
"$kmc" -k0 < /dev/null > "$out" 2> /dev/full
status=$?
ends "a wrong option and a full disk for messages" 2
"$kmc" -k4 < "$work/faulty" > "$out" 2>&-
status=$?
ends "a faulty text and no place for messages" 1
"$kmc" -k25 -ci1 < "$work/reads.fastq" >&- 2>&-
status=$?
ends "a closed output and no place for messages" 1
(trap '' XFSZ && ulimit -f 64 && exec "$kmc" -k25 -ci1) < "$work/reads.fastq" > "$work/part" 2> "$err"
status=$?
fails "a file that may not become longer than 64 KB" 'kmc: write failed'
head -c "$(wc -c < "$work/part")" "$work/dump" > "$out"
[ -s "$work/part" ] && cmp -s "$out" "$work/part" && status=0 || status=1
judge "what that file holds, which should be the dump's beginning" "$([ $status -eq 0 ] && echo yes)"
: > "$out"

"$kmc" -k25 -ci1 < "$work/reads.fastq" 2> "$err" | { sleep 1 && cat; } > "$out"
status=${PIPESTATUS[0]}
judge "a pipe that is read late" "$(is_dump && echo yes)"
: > "$out"

# a pipe that closes early: the dump is far longer than a pipe holds
for round in 1 2 3 4 5; do
    "$kmc" -k25 -ci1 < "$work/reads.fastq" 2> "$err" | head -n 1 > "$work/first"
    status=${PIPESTATUS[0]}
    [ "$(cat "$work/first")" = "$(head -n 1 "$work/dump")" ] || judge "the first line through a pipe that closes early" no
    if [ "$status" -eq 141 ] && [ ! -s "$err" ]; then
        judge "a pipe that closes early" yes
        shown="no message, ended by the pipe's signal"
    elif [ "$status" -eq 1 ] && [ ! -s "$err" ]; then
        judge "a pipe that closes early" yes
        shown="no message, status 1"
    else
        judge "a pipe that closes early" no
        shown="wrong"
    fi
    [ "$round" -eq 5 ] && echo "limits: a pipe that closes early: $shown"
done

echo "$tried tried, $wrong wrong"
[ "$wrong" -eq 0 ]
