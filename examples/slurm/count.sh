#!/bin/sh
# Counts the k-mers of many files by job arrays of Slurm: each file is cut into slices, each slice is listed, and the slices' dumps are merged.
#
# usage: examples/slurm/count.sh WORK DUMP FILE ..
#
# WORK is a new folder that all nodes see; it takes about 1.1 bytes for each symbol, and is removed at the end. Variables say the rest: K (31),
# MIN (2), CAP (255), SLICES (64), THREADS (4), MEMORY of a job (8G). Words for sbatch, as a partition, stand in SBATCH_OPTIONS.
# A job that fails keeps those behind it from beginning, and WORK shows how far it came.
set -eu
K=${K:-31} MIN=${MIN:-2} CAP=${CAP:-255} SLICES=${SLICES:-64} THREADS=${THREADS:-4} MEMORY=${MEMORY:-8G}
export K MIN CAP SLICES THREADS MEMORY

# the step of a job, which is this script again
case ${FUTONCRANE_STEP:-} in
    cut)
        number=$SLURM_ARRAY_TASK_ID
        file=$(sed -n "$((number + 1))p" "$WORK/files")
        exec futoncrane cut --quiet --force -k "$K" --slices "$SLICES" -t "$THREADS" -o "$WORK/part$number" "$file"
        ;;
    list)
        slice=$SLURM_ARRAY_TASK_ID
        set --
        number=0
        while [ "$number" -lt "$PARTS" ]; do
            set -- "$@" "$WORK/part$number.$slice"
            number=$((number + 1))
        done
        exec futoncrane list --quiet --min "$MIN" --cap "$CAP" -t "$THREADS" -m "$MEMORY" -o "$WORK/slice$slice.dump" "$@"
        ;;
    merge)
        futoncrane merge --min 1 --cap none -o "$DUMP" "$WORK"/slice*.dump
        rm -r "$WORK"
        exit
        ;;
esac

if [ $# -lt 3 ]; then
    sed -n 's/^# usage: /usage: /p' "$0" >&2
    exit 2
fi
mkdir "$1"
WORK=$(cd "$1" && pwd)
case $2 in /*) DUMP=$2 ;; *) DUMP=$PWD/$2 ;; esac
shift 2
PARTS=$#
export WORK DUMP PARTS
for file; do
    if [ ! -r "$file" ]; then
        echo "count.sh: $file cannot be read" >&2
        rmdir "$WORK"
        exit 1
    fi
done
for file; do realpath -- "$file"; done > "$WORK/files"

# submitted STEP WORD..: submits a job of this step, and tells its number
submitted() {
    step=$1
    shift
    # shellcheck disable=SC2086
    FUTONCRANE_STEP=$step sbatch --parsable --export=ALL --job-name="kmers-$step" --output="$WORK/$step-%a.log" --cpus-per-task="$THREADS" --mem="$MEMORY" \
        ${SBATCH_OPTIONS:-} "$@" "$0"
}

cut=$(submitted cut --array="0-$((PARTS - 1))")
list=$(submitted list --array="0-$((SLICES - 1))" --dependency="afterok:$cut")
merge=$(submitted merge --dependency="afterok:$list")
echo "jobs $cut, $list and $merge are submitted; the dump will be $DUMP"
