#!/bin/sh
# The peak memory of ./kmc on simulated inputs, beside the formula of docs/kmc.1, MEMORY. Prints a Markdown table.
#
# usage: bench/memory.sh
#
# Wants GNU time. The inputs are made in a folder of $TMPDIR or /tmp, which is removed at the end. MB are a million bytes. What is freed goes
# back to the system, as where futoncrane starts the program.
set -eu
export MALLOC_MMAP_THRESHOLD_=65536
top=$(cd "$(dirname "$0")/.." && pwd)
work=$(mktemp -d)
trap 'rm -rf "$work"' EXIT

echo "| input | options | symbols, millions | listed, millions | peak MB |"
echo "|---|---|---|---|---|"

# row NAME FILE OPTIONS
row() {
    /usr/bin/time -o "$work/peak" -f '%M' sh -c "$top/kmc $3 < $work/$2 > $work/dump"
    symbols=$(case $2 in *.fa) grep -v '^>' "$work/$2" | tr -d '\n' | wc -c ;; *) awk 'NR % 4 == 2 { n += length($0) } END { print n }' "$work/$2" ;; esac)
    echo "$symbols $(wc -l < "$work/dump") $(cat "$work/peak")" |
        awk -v name="$1" -v options="$3" '{ printf "| %s | `%s` | %.1f | %.1f | %.0f |\n", name, options, $1 / 1e6, $2 / 1e6, $3 * 1024 / 1e6 }'
}

python3 "$top/bench/simulate_reads.py" 500000 100 5000000 1 > "$work/few.fq"
python3 "$top/bench/simulate_reads.py" 1500000 100 5000000 1 > "$work/short.fq"
python3 "$top/bench/simulate_reads.py" 10000 5000-25000 5000000 2 0.05 > "$work/long.fq"
python3 "$top/bench/simulate_genome.py" 1 30000000 3 > "$work/genome.fa"
python3 -c 'a = "A" * 100; [print("@r\n%s\n+\n%s" % (a, a)) for _ in range(500000)]' > "$work/a.fq"

row "0.5 million reads of 100" few.fq -ci1000
row "1.5 million reads of 100" short.fq -ci1000
row "1.5 million reads of 100" short.fq -k25
row "1.5 million reads of 100" short.fq "-k25 -ci1"
row "1.5 million reads of 100" short.fq "-k50 -ci1"
row "1.5 million reads of 100" short.fq -k5
row "1.5 million reads of 100" short.fq -k9
row "1.5 million reads of 100" short.fq -k12
row "1.5 million reads of 100" short.fq "-k25 -cs1000000"
row "10000 reads of 5000 to 25000" long.fq -ci1000
row "10000 reads of 5000 to 25000" long.fq "-k25 -ci1"
row "1.5 million reads of 100, in one bin" short.fq "-k25 -n1"
row "10000 reads of 5000 to 25000, in one bin" long.fq "-k25 -n1"
row "10000 reads of 5000 to 25000, in one bin" long.fq "-k55 -n1"
row "a sequence of 30 million" genome.fa "-fm -ci1"
row "a sequence of 30 million" genome.fa "-fm -ci1 -sp4 -sr4"
for options in "-k25 -ci1" "-k32 -ci1" "-k55 -ci1" "-k64 -ci1"; do
    row "0.5 million reads of 100 letters A" a.fq "$options"
done
