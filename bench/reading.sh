#!/bin/sh
# What reading and feeding alone take: short reads whose middle symbol is N, with k = 64, have no word, so the thread that reads has all of the
# work but that of finding no base. Prints a Markdown table: bytes, the least wall and processor seconds, and nanoseconds a byte of the wall time.
#
# usage: bench/reading.sh [TURNS]      (three)
#
# Wants GNU time. The texts are made from that of bench/compare.sh, /tmp/kmc_bench_short, or where it is not there from 1.5 million reads of 100.
set -eu
top=$(cd "$(dirname "$0")/.." && pwd)
turns=${1:-3}
short=${TMPDIR:-/tmp}/kmc_bench_short
work=$(mktemp -d)
trap 'rm -rf "$work"' EXIT
if [ -f "$short" ]; then ln -s "$short" "$work/short"; else python3 "$top/bench/simulate_reads.py" 1500000 100 5000000 1 > "$work/short"; fi
awk 'NR % 4 == 2 { $0 = substr($0, 1, 49) "N" substr($0, 51) } { print }' "$work/short" > "$work/reads"
awk 'NR % 4 == 1 { print ">r" } NR % 4 == 2 { print }' "$work/reads" > "$work/sequences"

echo "| text | MB | threads | wall s | processor s | ns a byte |"
echo "|---|---|---|---|---|---|"
while read -r text name option; do
    for threads in 1 4; do
        turn=0
        rm -f "$work/times"
        while [ "$turn" -lt "$turns" ]; do
            /usr/bin/time -a -o "$work/times" -f '%e %U %S' "$top/kmc" -k64 "$option" "-sp$threads" "-sr$threads" < "$work/$text" > "$work/dump"
            [ ! -s "$work/dump" ]
            turn=$((turn + 1))
        done
        sort -n "$work/times" | head -1 | awk -v text="$name" -v bytes="$(wc -c < "$work/$text")" -v threads="$threads" \
            '{ printf "| %s | %.0f | %d | %.2f | %.2f | %.2f |\n", text, bytes / 1e6, threads, $1, $2 + $3, $1 * 1e9 / bytes }'
    done
done <<END
reads FASTQ -fq
sequences FASTA -fm
END
