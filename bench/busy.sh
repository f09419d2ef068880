#!/bin/sh
# Compares ./kmc with KMC 3 on a machine that has other work: four busy processes run beside each of them.
#
# usage: bench/busy.sh [-r ROUNDS] [-t THREADS]
#
# Wants `kmc` and `kmc_tools` (Debian's package kmc). The text is the workload `short` of bench/compare.sh: 1.5 million reads of
# 100 symbols, k 25, words that occur twice or more; it is made once, in $TMPDIR or /tmp. In each of ROUNDS (5) rounds our
# program runs first and then KMC 3 (`kmc -r` and the sorted dump together), each with THREADS (4) threads (-spN -srN against
# -tN); the dumps must be equal byte for byte, and a row tells the wall seconds of both and ours as a part of theirs. The
# busy processes are this script's own, and end with it, however it ends.
set -eu
top=$(cd "$(dirname "$0")/.." && pwd)
rounds=5
threads=4
while getopts r:t: option; do
    case $option in
        r) rounds=$OPTARG ;;
        t) threads=$OPTARG ;;
        *) exit 2 ;;
    esac
done
text="${TMPDIR:-/tmp}/kmc_bench_short"
if [ ! -f "$text" ]; then
    python3 "$top/bench/simulate_reads.py" 1500000 100 5000000 1 > "$text.part"
    mv "$text.part" "$text"
fi

work=$(mktemp -d)
busy=
end() {
    for process in $busy; do
        kill "$process" 2> /dev/null || true
    done
    rm -rf "$work"
}
trap end EXIT
trap 'exit 1' HUP INT TERM
for _ in 1 2 3 4; do
    sh -c 'while :; do :; done' &
    busy="$busy $!"
done

ours() {
    "$top/kmc" -k25 -fq -ci2 "-sp$threads" "-sr$threads" < "$text" > "$work/ours.dump"
}

theirs() {
    kmc -k25 -fq -ci2 -r "-t$threads" "$text" "$work/base" "$work" > "$work/log" 2>&1
    kmc_tools "-t$threads" transform "$work/base" dump -s "$work/theirs.dump" > "$work/log" 2>&1
}

# seconds_of NAME: runs it, and leaves its wall seconds in `seconds`
seconds_of() {
    begun=$(date +%s.%N)
    "$1"
    ended=$(date +%s.%N)
    seconds=$(awk "BEGIN { printf \"%.2f\", $ended - $begun }")
}

echo "| round | ours: wall s | KMC 3: wall s | ours / KMC 3 |"
echo "|---|---|---|---|"
round=1
while [ "$round" -le "$rounds" ]; do
    rm -f "$work"/*.dump "$work"/base.* # some file systems have who writes over a file wait for the disk when it is closed
    seconds_of ours
    our_seconds=$seconds
    seconds_of theirs
    cmp "$work/ours.dump" "$work/theirs.dump"
    awk "BEGIN { printf \"| %d | %.2f | %.2f | %.2f |\n\", $round, $our_seconds, $seconds, $our_seconds / $seconds }"
    round=$((round + 1))
done
