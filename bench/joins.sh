#!/bin/sh
# Compares `futoncrane` with `kmc_tools simple` of KMC 3, and with one kmc_db alone: union, intersection, and both differences of two sets of
# reads that share half of their genome, and the first two of these from databases, into a dump and into a database. The answers must be equal.
# The table of the two stands beside them, which KMC 3 has not: its numbers must add up to the k-mers of the union. Then what a database and a
# histogram of reads take beside a dump of them, and a thousand words looked up. Prints two Markdown tables.
#
# usage: bench/joins.sh
#
# Wants `kmc` and `kmc_tools` (Debian's package kmc) and GNU time. READS (1500000), K (31) and ROUNDS (3) are variables: so many reads of 100
# symbols are simulated for each side. Ours reads two dumps or databases and writes a dump, or a database, which a second kmc_db packs where one
# alone joins; KMC's reads two databases and writes one, and its dump is made apart, for comparison alone. Memory is that of the largest
# program. A row has the least wall time of each. The files lie in a folder of $TMPDIR or /tmp, which is removed at the end.
set -eu
top=$(cd "$(dirname "$0")/.." && pwd)
reads=${READS:-1500000}
k=${K:-31}
rounds=${ROUNDS:-3}
work=$(mktemp -d)
trap 'rm -rf "$work"' EXIT
cd "$work"
mkdir files

# half of the second side's reads are those of the first
python3 "$top/bench/simulate_reads.py" "$reads" 100 5000000 1 > first.fq
{ head -n $((reads * 2)) first.fq; python3 "$top/bench/simulate_reads.py" $((reads / 2)) 100 5000000 2; } > second.fq
for side in first second; do
    kmc "-k$k" -fq -ci1 -cs1000000 -t4 "$side.fq" "$side" files > log 2>&1
    "$top/kmc" "-k$k" -ci1 -cs1000000 -sp4 -sr4 < "$side.fq" > "$side.dump"
    "$top/kmc_db" pack "-k$k" -ci1 -cs1000000 "sorted_$side" < "$side.dump"
done
rm second.fq

# best NAME: the line of the least wall time, memory in MB
best() {
    sort -n "$1.times" | head -1 | awk '{ printf "%.2f | %.2f | %.0f", $1, $2, $3 / 1024 }'
}

echo "| operation | k-mers of both sides, millions | of the answer | futoncrane: wall s | user s | MB | kmc_db alone: wall s | user s | MB | kmc_tools: wall s | user s | MB | wall, futoncrane / kmc_tools | kmc_db / kmc_tools |"
echo "|---|---|---|---|---|---|---|---|---|---|---|---|---|---|"
read_in=$(cat first.dump second.dump | wc -l)
while read -r kind name theirs command; do
    rm -f ./*.times
    left=sorted_first right=sorted_second ends=.kmc made=.dump sink='> ours.dump'
    case $kind in
        dumps) left=first.dump right=second.dump ends='' what=$name ;;
        databases) what="$name of databases" ;;
        packed)
            what="$name of databases, into a database" made=.kmc
            sink="| $top/kmc_db pack -k$k -ci1 -cx9223372036854775808 -cs4294967295 ours" ;;
    esac
    round=0
    while [ "$round" -lt "$rounds" ]; do
        # new files: some file systems have who writes over a file wait for the disk when it is closed
        rm -f ours.dump ranged.dump ours.kmc_* ranged.kmc_* joined.*
        # shellcheck disable=SC2086 # words of a command
        FUTONCRANE_BIN=$top /usr/bin/time -a -o ranged.times -f '%e %U %M' "$top/futoncrane/futoncrane" $command -q -t4 --cap 4294967295 \
            -o "ranged$made" "$left$ends" "$right$ends"
        /usr/bin/time -a -o ours.times -f '%e %U %M' sh -c "$top/kmc_db $name -ci1 -cs4294967295 $left $right $sink"
        /usr/bin/time -a -o theirs.times -f '%e %U %M' kmc_tools -t4 simple first second "$theirs" joined -cs4294967295 > log 2>&1
        round=$((round + 1))
    done
    kmc_tools -t4 transform joined dump -s theirs.dump > log 2>&1
    if [ "$kind" = packed ]; then
        cmp ranged.kmc_pre ours.kmc_pre
        cmp ranged.kmc_suf ours.kmc_suf
        "$top/kmc_db" dump ours > ours.dump
        "$top/kmc_db" dump ranged > ranged.dump
    fi
    cmp ours.dump theirs.dump
    cmp ranged.dump theirs.dump
    if [ "$name" = union ]; then
        either=$(wc -l < ours.dump)
    fi
    echo "$what | $read_in | $(wc -l < ours.dump) | $(best ranged) | $(best ours) | $(best theirs)" | awk -F ' [|] ' '{
        printf "| %s | %.1f | %.1f | %s | %s | %s | %s | %s | %s | %s | %s | %s | %.2f | %.2f |\n",
            $1, $2 / 1e6, $3 / 1e6, $4, $5, $6, $7, $8, $9, $10, $11, $12, $4 / $10, $7 / $10 }'
done <<END
dumps intersect intersect intersect
dumps union union union
dumps subtract kmers_subtract subtract
dumps counters-subtract counters_subtract subtract --counts
databases intersect intersect intersect
databases union union union
packed intersect intersect intersect
packed union union union
END

rm -f ./*.times
round=0
while [ "$round" -lt "$rounds" ]; do
    FUTONCRANE_BIN=$top /usr/bin/time -a -o ranged.times -f '%e %U %M' "$top/futoncrane/futoncrane" table -q -t4 first.dump second.dump > ranged.rows
    /usr/bin/time -a -o ours.times -f '%e %U %M' "$top/kmc_db" table first.dump second.dump > rows
    cmp rows ranged.rows
    round=$((round + 1))
done
[ "$(awk '{ all += $3 } END { print all + 0 }' rows)" = "$either" ]
echo "table | $read_in | $(wc -l < rows) | $(best ranged) | $(best ours)" | awk -F ' [|] ' '{
    printf "| %s | %.1f | %d rows | %s | %s | %s | %s | %s | %s | - | - | - | - | - |\n", $1, $2 / 1e6, $3, $4, $5, $6, $7, $8, $9 }'

# alone or with what reads the dump through a pipe
count="$top/kmc -k$k -ci1 -cs1000000 -sp4 -sr4 < first.fq"
awk -v step="$(($(wc -l < first.dump) / 1000))" 'NR % step == 1 && n++ < 1000 { print $1 }' first.dump > words
rm -f ./*.times
round=0
while [ "$round" -lt "$rounds" ]; do
    rm -f alone.dump packed.* direct.* filed.*
    /usr/bin/time -a -o alone.times -f '%e %U %M' sh -c "$count > alone.dump"
    /usr/bin/time -a -o pack.times -f '%e %U %M' sh -c "$count | $top/kmc_db pack -k$k -ci1 -cs1000000 packed"
    /usr/bin/time -a -o direct.times -f '%e %U %M' sh -c "$top/kmc_db count -k$k -ci1 -cs1000000 -sp4 -sr4 direct < first.fq"
    FUTONCRANE_BIN=$top /usr/bin/time -a -o filed.times -f '%e %U %M' "$top/futoncrane/futoncrane" count -q -t4 "-k$k" --min 1 --cap 1000000 \
        -o filed.kmc first.fq
    cmp packed.kmc_suf direct.kmc_suf
    cmp packed.kmc_pre direct.kmc_pre
    cmp packed.kmc_suf filed.kmc_suf
    /usr/bin/time -a -o piped.times -f '%e %U %M' sh -c "$count | $top/kmc_db histogram - > rows"
    /usr/bin/time -a -o histogram.times -f '%e %U %M' sh -c "$top/kmc_db spectrum -k$k -ci1 -cs1000000 -sp4 -sr4 < first.fq > told.rows"
    cmp rows told.rows
    FUTONCRANE_BIN=$top /usr/bin/time -a -o dealt.times -f '%e %U %M' "$top/futoncrane/futoncrane" histogram -q -t4 "-k$k" first.fq > dealt.rows
    cmp rows dealt.rows
    /usr/bin/time -a -o walk.times -f '%e %U %M' sh -c "$top/kmc_db query first.dump < words > walked"
    /usr/bin/time -a -o query.times -f '%e %U %M' sh -c "$top/kmc_db query packed < words > counts"
    cmp counts walked
    round=$((round + 1))
done
[ "$(wc -l < counts)" = 1000 ]
echo
echo "| $(wc -l < first.dump | awk '{ printf "%.1f", $1 / 1e6 }') million k-mers | wall s | user s | MB | wall, of that of the dump alone |"
echo "|---|---|---|---|---|"
while read -r name what; do
    echo "$what | $(best "$name") | $(best alone)" | awk -F ' [|] ' '{ printf "| %s | %s | %s | %s | %.2f |\n", $1, $2, $3, $4, $2 / $5 }'
done <<END
alone a dump of reads
direct a database of reads
filed the same by futoncrane
pack the same of the dump, through a pipe
histogram the histogram of reads
dealt the same by futoncrane
piped the same of the dump, through a pipe
walk a thousand words in the dump
query a thousand words in the database
END
