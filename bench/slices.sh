#!/bin/sh
# Compares one run of ./kmc, `futoncrane count --slices`, its steps one after the other (kmc_cut, kmc_list slice after slice, kmc_merge) and
# KMC 3 on its files (`-m2`): the dumps byte for byte, wall and user seconds, peak memory of the greatest process (of futoncrane that of all
# programs at once, looked at five times a second), and the disk. Prints Markdown tables.
#
# usage: bench/slices.sh [WORKLOAD ..]
#
# Wants `kmc` and `kmc_tools` (Debian's package kmc) and GNU time. Where dask.distributed is installed (python3-distributed), `futoncrane
# cluster` with a worker of one thread for each of THREADS runs too. The workloads, the first three where none is named:
#
#   short   SHORT_READS (6000000: 1.3 GB) reads of 100 symbols from a genome of 20 million (30-fold), FASTQ
#   deep    as bench/compare.sh has it: 0.3 GB, 88-fold
#   hifi    LONG_READS (20000: 600 MB) reads of 15,000 symbols from a genome of 10 million (30-fold) with errors in 2 of 1000, FASTQ
#   plant, fly, plant_fifth, fly_fifth    as bench/compare.sh has them
#
# SLICES (8), THREADS (4), ROUNDS (3), K (25) and KMC_GB (2: the memory that KMC 3 is given) are variables too, and ROOM: the memory that
# futoncrane is given, as 1G, to choose the number of slices by itself. Then one run by futoncrane stands beside that, which waits as it does
# until the dump is on the disk, in the place of the steps, of the cluster and of the other tables. The programs run in turn, ROUNDS times each; a row has the run with the least wall time. KMC's sorted dump is part of its time. The disk is that of the files of the
# meantime, without reads and dump, looked at five times a second. FOLDER (of $TMPDIR or /tmp) has the files, as /dev/shm for a file system
# in memory, which are removed at the end; the texts lie there too, or stay in the folder TEXTS for the next time. The second table has the
# steps of the slices; the third has the peak of kmc_cut on a quarter of the short reads, as often as CUT_TIMES (1 4 16: 0.3, 1.3 and 5 GB) say.
set -eu
top=$(cd "$(dirname "$0")/.." && pwd)
slices=${SLICES:-8}
threads=${THREADS:-4}
rounds=${ROUNDS:-3}
k=${K:-25}
work=$(mktemp -d "${FOLDER:-${TMPDIR:-/tmp}}/slices-XXXXXX")
texts=${TEXTS:-$work}
room="--slices $slices"
[ -z "${ROOM:-}" ] || room="--memory $ROOM"
trap 'touch "$work/ended"; wait; rm -rf "$work"' EXIT
cd "$work"
whole="-ci1 -cx9223372036854775808 -cs9223372036854775808"
# as futoncrane starts the programs: what is freed goes back to the system
freed=MALLOC_MMAP_THRESHOLD_=65536

. "$top/bench/texts.sh"

# linked WORKLOAD READS: makes its text where it is not there, and calls it `reads`
linked() {
    case $1 in
        deep | plant* | fly*) text=$(text_of "$1") ;;
        *) text="$texts/slices_$1_$2" ;;
    esac
    if [ ! -f "$text" ]; then
        case $1 in
            short) python3 "$top/bench/simulate_reads.py" "$2" 100 20000000 1 > "$text.part" ;;
            hifi) python3 "$top/bench/simulate_reads.py" "$2" 15000 10000000 4 0.002 > "$text.part" ;;
        esac
        mv "$text.part" "$text"
    fi
    ln -sf "$text" reads
}

# reads_of WORKLOAD: how many reads it has
reads_of() {
    case $1 in
        short) echo "${SHORT_READS:-6000000}" ;;
        hifi) echo "${LONG_READS:-20000}" ;;
        deep | plant* | fly*) echo all ;;
        *) echo "slices.sh: no workload $1" >&2; return 2 ;;
    esac
}

# timed NAME COMMAND: adds a line 'wall user kilobytes' to the times of NAME. What it writes are new files: some file systems have who
# writes over a file wait for the disk when it is closed
timed() {
    /usr/bin/time -a -o "$1.times" -f '%e %U %M' sh -c "$2"
}

# watched FOLDER: notes the greatest kilobytes that the folder takes, and those that the programs of slices hold, until it is told to end
watched() {
    greatest=0
    most=0
    while [ ! -e ended ]; do
        now=$(du -sk "$1" 2> /dev/null | cut -f 1)
        [ "${now:-0}" -le "$greatest" ] || greatest=$now
        echo "$greatest" > "$1.disk"
        now=$(ps -C kmc_cut,kmc_list,kmc_merge -o rss= | awk '{ n += $1 } END { print n + 0 }')
        [ "$now" -le "$most" ] || most=$now
        echo "$most" > "$1.memory"
        sleep 0.2
    done
}

# watch FOLDER, and unwatch: around what is watched
watch() {
    rm -rf "$1" ended
    mkdir "$1"
    watched "$1" &
}

unwatch() {
    touch ended
    wait
}

in_one_run() {
    rm -f one.dump
    timed one "$freed $top/kmc -k$k -sp$threads -sr$threads < reads > one.dump"
}

in_slices() {
    watch cut
    timed cut "$freed $top/kmc_cut -k$k -sp$threads -slices$slices cut/part < reads"
    cat cut/part.* | wc -c > records
    number=0
    dumps=''
    rm -f slices.dump
    : > list.times
    while [ "$number" -lt "$slices" ]; do
        timed list "$freed $top/kmc_list -sr$threads cut/part.$number > cut/dump.$number"
        rm "cut/part.$number"
        dumps="$dumps cut/dump.$number"
        number=$((number + 1))
    done
    timed merge "$top/kmc_merge $whole $dumps > slices.dump"
    unwatch
    # the three steps of this round as one line, and each by itself
    { tail -n 1 cut.times; cat list.times; tail -n 1 merge.times; } |
        awk '{ wall += $1; user += $2; if ($3 > most) most = $3 } END { printf "%.2f %.2f %d\n", wall, user, most }' >> slices.times
    awk '{ wall += $1; user += $2; if ($3 > most) most = $3 } END { printf "%.2f %.2f %d\n", wall, user, most }' list.times >> lists.times
    cmp one.dump slices.dump
    rm -rf cut
}

in_futoncrane() {
    watch sliced
    rm -f futoncrane.dump
    timed futoncrane "FUTONCRANE_BIN=$top $top/futoncrane/futoncrane count --quiet $room -t $threads --directory sliced -k$k -o futoncrane.dump reads"
    unwatch
    # the memory is that of all programs together
    { sed '$d' futoncrane.times; tail -n 1 futoncrane.times | awk -v most="$(cat sliced.memory)" '{ print $1, $2, most }'; } > all.times
    mv all.times futoncrane.times
    cmp one.dump futoncrane.dump
    rm -rf sliced
}

in_one_run_of_futoncrane() {
    rm -f whole.dump
    timed whole "FUTONCRANE_BIN=$top $top/futoncrane/futoncrane count --quiet -t $threads -k$k -o whole.dump reads"
    cmp one.dump whole.dump
}

in_kmc3() {
    watch theirs
    mkdir theirs/files
    rm -f kmc3.dump
    timed kmc3 "kmc -k$k -ci2 -m${KMC_GB:-2} -t$threads reads theirs/base theirs/files > log 2>&1 && kmc_tools -t$threads transform theirs/base dump -s kmc3.dump >> log 2>&1"
    unwatch
    cmp one.dump kmc3.dump
    rm -rf theirs
}

# the python that has dask.distributed, or nothing
dask=''
for python in python3 /usr/bin/python3; do
    if [ -z "${ROOM:-}" ] && "$python" -c 'import distributed' 2> /dev/null; then dask=$python; break; fi
done

in_cluster() {
    watch cluster
    rm -f cluster.dump
    timed cluster "FUTONCRANE_BIN=$top $dask $top/futoncrane/futoncrane cluster --workers $threads --slices $slices --directory cluster -k$k -o cluster.dump reads 2> log"
    unwatch
    cmp one.dump cluster.dump
    rm -rf cluster
}

# best NAME: the line of the least wall time, memory in MB
best() {
    sort -n "$1.times" | awk 'NR == 1 { printf "%.2f %.2f %.0f", $1, $2, $3 / 1024 }'
}

# row TEXT NAME DISK: a row, beside the best wall time and memory of one run
row() {
    echo "$(best "$2") $(best one)" | awk -v text="$1" -v name="$2" -v disk="$3" '{
        printf "| %s | %s | %s | %s | %s | %s | %.2f | %.2f |\n", text, name, $1, $2, $3, disk, $1 / $4, $3 / $6 }'
}

megabytes() {
    awk '{ printf "%.0f", $1 / 1024 }' "$1"
}

[ $# -gt 0 ] || set -- short deep hifi
: > steps
echo "| reads | run | wall s | user s | MB | disk MB | wall, as a part of one run's | memory, so |"
echo "|---|---|---|---|---|---|---|---|"
for workload; do
    many=$(reads_of "$workload")
    linked "$workload" "$many"
    size=$(awk -v bytes="$(wc -c < reads)" 'BEGIN { printf "%.1f GB", bytes / 1e9 }')
    rm -f ./*.times
    round=0
    while [ "$round" -lt "$rounds" ]; do
        in_one_run
        in_futoncrane
        if [ -n "${ROOM:-}" ]; then in_one_run_of_futoncrane; else in_slices; fi
        in_kmc3
        [ -z "$dask" ] || in_cluster
        round=$((round + 1))
    done
    row "$workload, $size" one 0
    row "$workload, $size" futoncrane "$(megabytes sliced.disk)"
    [ -z "${ROOM:-}" ] || row "$workload, $size" whole 0
    [ -n "${ROOM:-}" ] || row "$workload, $size" slices "$(megabytes cut.disk)"
    row "$workload, $size" kmc3 "$(megabytes theirs.disk)"
    [ -z "$dask" ] || row "$workload, $size" cluster "$(megabytes cluster.disk)"
    [ -z "${ROOM:-}" ] || continue
    symbols=$(awk 'NR % 4 == 2 { n += length($0) } END { print n }' reads)
    for step in cut lists merge; do
        echo "| $workload | $step | $(best "$step" | sed 's/ / | /g') |" >> steps
    done
    awk -v text="$workload" -v symbols="$symbols" '{ printf "| %s | bytes of the files of records for each symbol | %.3f | | |\n", text, $1 / symbols }' records >> steps
done
[ -z "${ROOM:-}" ] || exit 0
echo
echo "| reads | step, $slices slices, $threads threads, k $k | wall s | user s | MB |"
echo "|---|---|---|---|---|"
cat steps
echo
echo "| input of kmc_cut, GB | peak MB |"
echo "|---|---|"
linked short "$(($(reads_of short) / 4))"
for times in ${CUT_TIMES:-1 4 16}; do
    mkdir cut
    rm -f peak.times
    for _ in $(seq "$times"); do cat reads; done | timed peak "$freed $top/kmc_cut -k$k -sp$threads -slices$slices cut/part"
    rm -rf cut
    echo "| $(wc -c < reads | awk -v times="$times" '{ printf "%.1f", times * $1 / 1e9 }') | $(best peak | cut -d ' ' -f 3) |"
done
