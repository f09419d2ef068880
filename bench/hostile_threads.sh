#!/usr/bin/env bash
# Runs ./kmc, and `./try_hostile parts`, many times in a row while other processes keep the processors busy: the same answer each time.
#
# usage: bench/hostile_threads.sh [RUNS [BUSY]]
#
# RUNS (200) runs of ./kmc in turn with -sp4 -sr4 and -sp16 -sr16, each of 12000 reads, and as many of `./try_hostile parts`, whose 16
# writers and 8 readers call the queue in threads of their own, and of each test of the queue in which a seat is held (test_queue,
# held). Each is ended after 120 seconds if it has not ended by then. BUSY (4)
# processes that do nothing else run beside them. The dump is that of bench/count_plainly.py. The variables KMC, HOSTILE and HELD (the
# built tests, as `rt test` leaves them) name other programs.
set -u
top=$(cd "$(dirname "$0")/.." && pwd)
kmc=${KMC:-$top/kmc}
hostile=${HOSTILE:-$top/try_hostile}
held=${HELD:-$top/crates/test_queue/out/test_queue_tests}
runs=${1:-200}
busy=${2:-4}
work=$(mktemp -d) || exit 1
pids=()
trap '[ "${#pids[@]}" -eq 0 ] || kill "${pids[@]}"; rm -rf "$work"' EXIT

python3 "$top/bench/simulate_reads.py" 12000 60 20000 9 > "$work/reads.fastq" || exit 1
python3 "$top/bench/count_plainly.py" 21 2 < "$work/reads.fastq" > "$work/dump" || exit 1

number=0
while [ "$number" -lt "$busy" ]; do
    nice -n 10 timeout 600 bash -c 'while :; do :; done' &
    pids+=($!)
    number=$((number + 1))
done

tests=$("$held" --list | sed -n 's/^\(held::.*\): test$/\1/p')
[ -n "$tests" ] || { echo "threads: no tests in $held" >&2; exit 1; }

run=0
tried=0
wrong=0
started=$(date +%s)
while [ "$run" -lt "$runs" ]; do
    threads=$((run % 2 == 0 ? 4 : 16))
    run=$((run + 1))
    timeout 120 "$kmc" -k21 -sp$threads -sr$threads < "$work/reads.fastq" > "$work/out" 2> "$work/err"
    status=$?
    tried=$((tried + 1))
    if [ "$status" -ne 0 ] || [ -s "$work/err" ] || ! cmp -s "$work/out" "$work/dump"; then
        wrong=$((wrong + 1))
        echo "threads: run $run with -sp$threads -sr$threads is wrong: status $status, $(head -c 300 "$work/err")"
    fi
    timeout 120 "$hostile" parts > "$work/out" 2> "$work/err"
    status=$?
    tried=$((tried + 1))
    if [ "$status" -ne 0 ] || [ -s "$work/err" ] || ! grep '^1600 parts' "$top/crates/try_hostile/stdout" | cmp -s - "$work/out"; then
        wrong=$((wrong + 1))
        echo "threads: run $run of many threads is wrong: status $status, $(head -c 300 "$work/out" "$work/err")"
    fi
    for test in $tests; do
        tried=$((tried + 1))
        if ! timeout 120 "$held" "$test" > "$work/out" 2>&1; then
            wrong=$((wrong + 1))
            echo "threads: run $run of $test is wrong: $(head -c 300 "$work/out")"
        fi
    done
done
echo "threads: $busy busy processes, $(wc -l < "$work/dump") k-mers, $(($(date +%s) - started)) seconds"
echo "$tried tried, $wrong wrong"
[ "$wrong" -eq 0 ]
