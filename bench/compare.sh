#!/bin/sh
# Compares ./kmc with KMC 3 on simulated texts: the dumps byte for byte, wall and processor seconds, peak memory. Prints a Markdown table.
#
# usage: bench/compare.sh [-k "25 31 55"] [-t "1 4"] [-r ROUNDS] [WORKLOAD ..]
#
# Wants `kmc` and `kmc_tools` (Debian's package kmc) and GNU time. The workloads, the first five where none is named:
#
#   short   1.5 million reads of 100 symbols from a genome of 5 million (30-fold), FASTQ, 325 MB, words that occur twice or more
#   deep    the same from a genome of 1.7 million (88-fold)
#   hifi    10,000 reads of 15,000 symbols from a genome of 5 million (30-fold) with errors in 2 of 1000
#   long    10,000 reads of 5,000 to 25,000 symbols with errors in 5 of 100
#   genome  five sequences of 20 million symbols, half of each twice, FASTA, 102 MB, all words
#   alla    100 MB of the letter A in reads of 100, all words
#   repeat  the same of the letters AC, over and over
#   prefix  8 million sequences of 40 symbols whose first 11 are the same, FASTA, all words; k to 40
#   one_bin short, by ours with one bin
#   plant   24 million reads of 150 symbols from a genome of 120 million (30-fold), a third of them with an error, FASTQ, 7.5 GB
#   fly     240,000 reads of 15,000 symbols from such a genome (30-fold) with errors in 2 of 1000, 7.2 GB
#   plant_fifth, fly_fifth    a fifth of either, for machines with less disk
#
# For each k and each number of threads (-spN -srN against -tN) ours and both modes of KMC run in turn, ROUNDS (3) times each. KMC's modes are
# `kmc -r`, in memory, and `kmc`, with files. The sorted dump is part of its time, and its memory is the greater of the two programs'.
# The row has the best of ours and the better mode of theirs. The texts are made once, in $TMPDIR or /tmp.
set -eu
top=$(cd "$(dirname "$0")/.." && pwd)
ks="25"
counts="1 4"
rounds=3
while getopts k:t:r: option; do
    case $option in
        k) ks=$OPTARG ;;
        t) counts=$OPTARG ;;
        r) rounds=$OPTARG ;;
        *) exit 2 ;;
    esac
done
shift $((OPTIND - 1))
work=$(mktemp -d)
trap 'rm -rf "$work"' EXIT
# as futoncrane starts the program: what is freed goes back to the system
freed=MALLOC_MMAP_THRESHOLD_=65536

. "$top/bench/texts.sh"

# options_of WORKLOAD: the format and the least count
options_of() {
    case $1 in
        genome | prefix) echo "-fm -ci1" ;;
        alla | repeat) echo "-fq -ci1" ;;
        *) echo "-fq -ci2" ;;
    esac
}

# timed NAME COMMAND: adds a line 'wall user memory' to the times of NAME. What it writes are new files: some file systems, as ext4, have
# who writes over a file wait for the disk when it is closed
timed() {
    name=$1
    shift
    rm -f "$work"/base.*
    /usr/bin/time -a -o "$work/$name.times" -f '%e %U %M' sh -c "$*"
}

# theirs MODE OPTIONS THREADS TEXT: KMC 3 and its sorted dump
theirs() {
    mkdir -p "$work/files"
    rm -f "$work/theirs.dump"
    timed "$1_$3" "kmc $2 -t$3 $4 $work/base $work/files > $work/log 2>&1 && kmc_tools -t$3 transform $work/base dump -s $work/theirs.dump > $work/log 2>&1"
}

# best NAME: the line of the least wall time, memory in MB
best() {
    sort -n "$work/$1.times" | head -1 | awk '{ printf "%.2f %.2f %.0f", $1, $2, $3 / 1024 }'
}

# better THREADS: the mode of KMC that took less, with its figures
better() {
    { echo "$(best "memory_$1") memory"; echo "$(best "files_$1") files"; } | sort -n | head -1
}

echo "| text | k | threads | ours: wall s | user s | MB | KMC 3: wall s | user s | MB | its mode | wall, ours / KMC 3 | memory |"
echo "|---|---|---|---|---|---|---|---|---|---|---|---|"
[ $# -gt 0 ] || set -- short deep hifi long genome
for workload in "$@"; do
    text=$(text_of "$workload")
    options=$(options_of "$workload")
    own=''
    [ "$workload" != one_bin ] || own=-n1
    for k in $ks; do
        [ "$workload" != prefix ] || [ "$k" -le 40 ] || continue
        rm -f "$work"/*.times
        round=0
        while [ "$round" -lt "$rounds" ]; do
            for threads in $counts; do
                rm -f "$work/ours.dump"
                timed "ours_$threads" "$freed $top/kmc -k$k $options $own -sp$threads -sr$threads < $text > $work/ours.dump"
                theirs memory "-k$k $options -r" "$threads" "$text"
                cmp "$work/ours.dump" "$work/theirs.dump"
                theirs files "-k$k $options" "$threads" "$text"
                cmp "$work/ours.dump" "$work/theirs.dump"
            done
            round=$((round + 1))
        done
        for threads in $counts; do
            echo "$workload $k $threads $(best "ours_$threads") $(better "$threads")" |
                awk '{ printf "| %s | %s | %s | %s | %s | %s | %s | %s | %s | %s | %.2f | %.2f |\n", $1, $2, $3, $4, $5, $6, $7, $8, $9, $10, $4 / $7, $6 / $9 }'
        done
    done
done
