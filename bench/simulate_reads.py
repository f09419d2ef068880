#!/usr/bin/env python3
"""Simulates reads of a random genome, as FASTQ on standard output.

usage: simulate_reads.py READS LENGTH GENOME SEED [ERRORS [UNKNOWN]]

READS reads of LENGTH symbols (or of LEAST to MOST, written LEAST-MOST) begin at random places of a random genome of GENOME symbols, half of them on the
other strand. Each symbol is another base with probability ERRORS (default 0.01), and N with probability
UNKNOWN (default 0.001). The same arguments always give the same reads.
"""
import random
import sys

COMPLEMENT = str.maketrans("ACGT", "TGCA")


def main():
    reads, genome_length, seed = (int(sys.argv[place]) for place in (1, 3, 4))
    least, most = (int(word) for word in (sys.argv[2].split("-") * 2)[:2])
    errors = float(sys.argv[5]) if len(sys.argv) > 5 else 0.01
    unknown = float(sys.argv[6]) if len(sys.argv) > 6 else 0.001
    source = random.Random(seed)
    genome = "".join(source.choices("ACGT", k=genome_length))
    lines = []
    for number in range(reads):
        length = least if least == most else source.randint(least, most)
        start = source.randrange(genome_length - length + 1)
        read = genome[start:start + length]
        if source.random() < 0.5:
            read = read.translate(COMPLEMENT)[::-1]
        symbols = list(read)
        mistakes = source.binomialvariate(length, errors) if hasattr(source, "binomialvariate") else sum(
            source.random() < errors for _ in range(length))
        for _ in range(mistakes):
            place = source.randrange(length)
            symbols[place] = source.choice("ACGT".replace(symbols[place], ""))
        gaps = sum(source.random() < unknown for _ in range(length)) if unknown > 0 else 0
        for _ in range(gaps):
            symbols[source.randrange(length)] = "N"
        lines.append("@read%d\n%s\n+\n%s\n" % (number, "".join(symbols), "I" * length))
        if len(lines) == 1000:
            sys.stdout.write("".join(lines))
            lines = []
    sys.stdout.write("".join(lines))


main()
