#!/usr/bin/env python3
"""The dump of a FASTQ text, counted plainly: an independent program to compare with.

usage: count_plainly.py [K [CI [CX [CS [apart]]]]] < reads.fastq > dump.txt

Every window of K symbols of every read is looked at by itself; a dictionary holds the counts.
"""
import sys

COMPLEMENT = str.maketrans("ACGT", "TGCA")


def main():
    settings = [25, 2, 10**9, 255]
    apart = "apart" in sys.argv[1:]
    for place, word in enumerate(word for word in sys.argv[1:] if word != "apart"):
        settings[place] = int(word)
    k, least, greatest, cap = settings
    counts = {}
    lines = [line.rstrip("\r") for line in sys.stdin.read().split("\n")]
    lines = [line for line in lines if line]
    for read in lines[1::4]:
        read = read.upper()
        for start in range(len(read) - k + 1):
            word = read[start:start + k]
            if set(word) <= set("ACGT"):
                other = word.translate(COMPLEMENT)[::-1]
                key = word if apart or word < other else other
                counts[key] = counts.get(key, 0) + 1
    for word in sorted(counts):
        if least <= counts[word] <= greatest:
            print(word, min(counts[word], cap), sep="\t")


main()
