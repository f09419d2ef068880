#!/bin/sh
# The texts of bench/compare.sh and bench/slices.sh, which read this file.
top=${top:-$(dirname "$0")/..}

# text_of WORKLOAD: makes its text where it is not there, and prints its name
text_of() {
    set -- "$(echo "$1" | sed s/one_bin/short/)"
    name="${TMPDIR:-/tmp}/kmc_bench_$1"
    if [ ! -f "$name" ]; then
        case $1 in
            short) python3 "$top/bench/simulate_reads.py" 1500000 100 5000000 1 > "$name.part" ;;
            deep) python3 "$top/bench/simulate_reads.py" 1500000 100 1700000 5 > "$name.part" ;;
            hifi) python3 "$top/bench/simulate_reads.py" 10000 15000 5000000 4 0.002 > "$name.part" ;;
            long) python3 "$top/bench/simulate_reads.py" 10000 5000-25000 5000000 2 0.05 > "$name.part" ;;
            genome) python3 "$top/bench/simulate_genome.py" 5 20000000 3 > "$name.part" ;;
            alla) python3 -c 'a = "A" * 100; [print("@r\n%s\n+\n%s" % (a, a)) for _ in range(500000)]' > "$name.part" ;;
            repeat) python3 -c 'a = "AC" * 50; [print("@r\n%s\n+\n%s" % (a, a)) for _ in range(500000)]' > "$name.part" ;;
            prefix) python3 -c 'import random; random.seed(6)
for _ in range(8000000): print(">r\nACGTTGCAGTC" + "".join(random.choices("ACGT", k=29)))' > "$name.part" ;;
            plant) python3 "$top/bench/simulate_reads.py" 24000000 150 120000000 7 0.0027 0 > "$name.part" ;;
            plant_fifth) python3 "$top/bench/simulate_reads.py" 4800000 150 24000000 7 0.0027 0 > "$name.part" ;;
            fly) python3 "$top/bench/simulate_reads.py" 240000 15000 120000000 8 0.002 0 > "$name.part" ;;
            fly_fifth) python3 "$top/bench/simulate_reads.py" 48000 15000 24000000 8 0.002 0 > "$name.part" ;;
            *) echo "compare.sh: no workload $1" >&2; return 2 ;;
        esac
        mv "$name.part" "$name"
    fi
    echo "$name"
}
