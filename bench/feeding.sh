#!/bin/sh
# What `futoncrane count` takes beside the program alone: one plain file against `kmc < file`, and one gzip file against `pigz -dc | kmc` and
# `gzip -dc | kmc`. Prints a Markdown table: the least wall time of each, the least processor time, and ours as a part of the other.
#
# usage: bench/feeding.sh [READS [TURNS]]      (6000000 reads of 100: 1.3 GB; three turns)
#
# Wants GNU time and gzip; pigz where it is installed. The programs run in turn, with as many threads as there are processors. The dumps are
# compared. The files are made in a folder of $TMPDIR or /tmp, which is removed at the end. Where TEXT names a file of so many reads, and
# TEXT.gz is it by gzip, these are taken in their place.
set -eu
top=$(cd "$(dirname "$0")/.." && pwd)
reads=${1:-6000000}
turns=${2:-3}
threads=$(nproc)
[ "$threads" -le 16 ] || threads=16
kmc="$top/kmc -k31 -cx9223372036854775808 -sp$threads -sr$threads"
# the interpreter itself is first in PATH: what stands before it may be a script that looks for it
PATH=$(python3 -c 'import os, sys; print(os.path.dirname(os.path.realpath(sys.executable)))'):$PATH
futoncrane="$top/futoncrane/futoncrane count --quiet -k 31"
work=$(mktemp -d)
trap 'rm -rf "$work"' EXIT
cd "$work"
if [ -n "${TEXT:-}" ]; then
    ln -s "$TEXT" reads.fastq
    ln -s "$TEXT.gz" reads.fastq.gz
else
    python3 "$top/bench/simulate_reads.py" "$reads" 100 20000000 1 > reads.fastq
    gzip -1 -c reads.fastq > reads.fastq.gz
fi

# timed NAME COMMAND: runs it, notes 'wall processor' under the name, and compares the dump with the first one
timed() {
    /usr/bin/time -a -o "$1.times" -f '%e %U %S' sh -c "$2 > dump"
    if [ -f wanted ]; then cmp wanted dump && rm dump; else mv dump wanted; fi
}

# best NAME: the least wall and the least processor seconds of its runs
best() {
    awk 'NR == 1 || $1 < wall { wall = $1 } NR == 1 || $2 + $3 < work { work = $2 + $3 } END { printf "%.2f %.2f", wall, work }' "$1.times"
}

unpackers=gzip
if command -v pigz > /dev/null; then unpackers='pigz gzip'; fi
# a folder that has no pigz, so that futoncrane takes gzip
mkdir no_pigz
ln -s "$(command -v gzip)" no_pigz/gzip
ln -s "$(command -v python3)" no_pigz/python3
turn=0
while [ "$turn" -lt "$turns" ]; do
    timed plain_alone "$kmc < reads.fastq"
    timed plain_ours "$futoncrane reads.fastq"
    for unpacker in $unpackers; do
        timed "${unpacker}_alone" "$unpacker -dc reads.fastq.gz | $kmc"
        path=$PATH
        if [ "$unpacker" = gzip ]; then path=$work/no_pigz; fi
        timed "${unpacker}_ours" "PATH=$path $futoncrane reads.fastq.gz"
    done
    turn=$((turn + 1))
done

echo "| input, $reads reads | the program alone: wall s | processor s | futoncrane count: wall s | processor s | wall, as a part | processor, as a part |"
echo "|---|---|---|---|---|---|---|"
for name in plain $unpackers; do
    what="one file by $name"
    if [ "$name" = plain ]; then what="one plain file"; fi
    echo "$(best "${name}_alone") $(best "${name}_ours")" |
        awk -v what="$what" '{ printf "| %s | %s | %s | %s | %s | %.3f | %.3f |\n", what, $1, $2, $3, $4, $3 / $1, $4 / $2 }'
done
