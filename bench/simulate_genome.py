#!/usr/bin/env python3
"""Simulates the sequences of a genome, as FASTA on standard output.

usage: simulate_genome.py SEQUENCES LENGTH SEED

SEQUENCES sequences of LENGTH symbols, in lines of 80. The second half of each is a copy of its first half, so that
its words occur twice. The same arguments always give the same sequences.
"""
import random
import sys


def main():
    sequences, length, seed = (int(word) for word in sys.argv[1:4])
    source = random.Random(seed)
    for number in range(sequences):
        first = "".join(source.choices("ACGT", k=(length + 1) // 2))
        sequence = (first + first)[:length]
        lines = [">sequence%d\n" % number]
        for start in range(0, length, 80):
            lines.append(sequence[start:start + 80] + "\n")
        sys.stdout.write("".join(lines))


main()
