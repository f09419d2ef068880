#!/usr/bin/env bash
# Times the merge of two dumps of 5.6 million lines, half of whose k-mers stand in both, beside `LC_ALL=C sort -m` on the same files.
#
# usage: make merges    (or bench/merge_time.sh, with the program in $KMC_MERGE)
#
# Each is run three times in turn, on one thread. The last line has the least time of each, in seconds, and the quotient.
set -eu
top=$(cd "$(dirname "$0")/.." && pwd)
KMC_MERGE=$(realpath "${KMC_MERGE:-$top/kmc_merge}")
work=$(mktemp -d)
trap 'rm -rf "$work"' EXIT
cd "$work"
python3 - << 'END'
import os

LINES, K = 5600000, 31
letters = bytes(b"ACGT"[byte & 3] for byte in range(256))


def words(count):
    text = os.urandom(count * K).translate(letters)
    return [text[place * K:place * K + K] for place in range(count)]


shared = words(LINES // 2)
for name in "a.dump", "b.dump":
    with open(name, "wb") as file:
        for word in sorted(set(shared + words(LINES - len(shared)))):
            file.write(b"%s\t%d\n" % (word, 1 + word[0] % 40))
END
export LC_ALL=C TIMEFORMAT=%R
for _ in 1 2 3; do
    rm -f sorted merged # some file systems have who writes over a file wait for the disk when it is closed
    { time sort -m a.dump b.dump > sorted; } 2>> sort.times
    { time "$KMC_MERGE" -ci1 -cx9223372036854775808 -cs9223372036854775808 a.dump b.dump > merged; } 2>> merge.times
done
sort -n sort.times | head -1 > least
sort -n merge.times | head -1 >> least
paste -s -d' ' least | awk '{ printf "sort -m %s s, kmc_merge %s s, %.2f times\n", $1, $2, $2 / $1 }'
