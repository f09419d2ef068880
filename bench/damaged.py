#!/usr/bin/env python3
"""Damaged bodies of records: each verdict of the program try_hostile bodies against a decoder of its own.

usage: damaged.py [--seed N] [--tries N] [--answers]

A body is made of the records of super-k-mers of one bin, then one byte of it is changed, left out or added, or its end cut off,
or nothing is done to it. The program tells for each body what `count_bin` and `Part::from_body` answer: the dump and the number of
words, or the first fault and where the record begins that has it. The decoder below is written from the rules of records,
signatures and bins. The variable HOSTILE names another program. With --answers no program is run: the rows of standard input are
answered.
"""
import argparse
import os
import random
import subprocess
import sys

HOSTILE = os.environ.get("HOSTILE", os.path.join(os.path.dirname(os.path.abspath(__file__)), "..", "try_hostile"))
LETTERS = "ACGT"

# ---- the decoder


def key(word):
    """A word or its reverse complement, whichever comes first. Words are tuples of codes."""
    return min(word, tuple(3 - code for code in reversed(word)))


def value(word):
    number = 0
    for code in word:
        number = 4 * number + code
    return number


def is_allowed(mmer):
    """Whether a canonical m-mer may be a signature."""
    return mmer[:3] not in ((0, 0, 0), (0, 1, 0)) and all(mmer[i:i + 2] != (0, 0) for i in range(1, len(mmer) - 1))


def windows(codes, length):
    return [codes[i:i + length] for i in range(len(codes) - length + 1)]


def bin_of(word, m, n):
    """The bin of the least allowed m-mer of a word; where none is allowed, that of 4^m."""
    mmers = map(key, windows(word, m))
    return min(map(value, filter(is_allowed, mmers)), default=4**m) % n


def record_at(body, offset, k):
    """The codes of the record at the offset and where it ends, or its fault."""
    symbols = k + body[offset]
    end = offset + 1 + (symbols + 3) // 4
    if end > len(body):
        return "short", None
    codes = [byte >> shift & 3 for byte in body[offset + 1:end] for shift in (6, 4, 2, 0)]
    if any(codes[symbols:]):
        return "padding", None
    return tuple(codes[:symbols]), end


def count_verdict(k, body):
    """The lines that tell of the count."""
    counts = {}
    offset = 0
    while offset < len(body):
        codes, end = record_at(body, offset, k)
        if end is None:
            return ["count: %s at %d" % (codes, offset)]
        for word in map(key, windows(codes, k)):
            counts[word] = counts.get(word, 0) + 1
        offset = end
    dump = ["%s\t%d" % ("".join(LETTERS[code] for code in word), counts[word]) for word in sorted(counts)]
    return ["count: %d" % len(dump)] + dump


def part_verdict(k, p, n, bin, body):
    """The line that tells of the part."""
    words = offset = 0
    while offset < len(body):
        codes, end = record_at(body, offset, k)
        if end is None:
            return "part: %s at %d" % (codes, offset)
        if any(bin_of(word, min(p, k), n) != bin for word in windows(codes, k)):
            return "part: wrong bin at %d" % offset
        words += len(codes) - k + 1
        offset = end
    return "part: %d" % words


def answer(row):
    """The lines for a row of the program's input."""
    k, p, n, bin, body = row.split(" ")
    k, p, n, bin, body = int(k), int(p), int(n), int(bin), bytes.fromhex(body)
    if not (1 <= k <= 64 and 5 <= p <= 11 and 1 <= n <= 2000 and bin < n):
        return ["no body"]
    return count_verdict(k, body) + [part_verdict(k, p, n, bin, body)]


# ---- bodies


def spelled(codes, k):
    """The record of a super-k-mer."""
    codes = list(codes) + [0] * (-len(codes) % 4)
    return [codes[i] * 64 + codes[i + 1] * 16 + codes[i + 2] * 4 + codes[i + 3] for i in range(0, len(codes), 4)]


def super_kmer(source, k, m, n, bin):
    """The codes of some words of a bin that follow one another; any word where the bin is none yet."""
    while True:
        codes = [source.randrange(4) for _ in range(k)]
        if bin is None or bin_of(tuple(codes), m, n) == bin:
            break
    bin = bin_of(tuple(codes), m, n)
    for _ in range(min(255, int(source.expovariate(0.15)))):
        codes.append(source.randrange(4))
        if bin_of(tuple(codes[-k:]), m, n) != bin:
            codes.pop()
            break
    return codes, bin


def row(source):
    """A row of the program's input."""
    k = source.choice((1, 2, 3, 4, 5, 7, 8, 11, 16, 25, 31, 32, 33, 47, 63, 64))
    p = source.randint(5, 11)
    n = source.choice((1, 1, 2, 3, 7, 31))
    body, bin = [], None
    for _ in range(source.randrange(6)):
        codes, bin = super_kmer(source, k, min(p, k), n, bin)
        body += [len(codes) - k] + spelled(codes, k)
    bin = source.randrange(n) if bin is None else bin
    damage = source.randrange(8)
    place = source.randrange(len(body) + 1)
    if damage <= 2 and place < len(body):
        body[place] = source.choice((source.randrange(256), body[place] ^ 1 << source.randrange(8)))
    elif damage == 3:
        del body[place:place + 1]
    elif damage == 4:
        body.insert(place, source.choice((0, 255, source.randrange(256))))
    elif damage <= 6:
        del body[place:]
    return "%d %d %d %d %s" % (k, p, n, bin, bytes(body).hex())


def main():
    asked = argparse.ArgumentParser(description=__doc__.splitlines()[0])
    asked.add_argument("--seed", type=int, default=1)
    asked.add_argument("--tries", type=int, default=10000)
    asked.add_argument("--answers", action="store_true")
    asked = asked.parse_args()
    if asked.answers:
        for line in sys.stdin.read().splitlines():
            print("\n".join(answer(line)))
        return
    source = random.Random(asked.seed)
    rows = [row(source) for _ in range(asked.tries)]
    run = subprocess.run([HOSTILE, "bodies"], input="".join(line + "\n" for line in rows).encode(), stdout=subprocess.PIPE, timeout=600)
    told = iter(run.stdout.decode().splitlines())
    kinds = {}
    wrong = 0
    for line in rows:
        wanted = answer(line)
        # an answer ends with the line of its part; nothing that follows a wrong one is judged by mistake
        given = []
        for given_line in told:
            given.append(given_line)
            if given_line.startswith("part: ") or given_line == "no body":
                break
        kind = "words" if wanted[-1][6:].isdigit() else " ".join(wanted[-1].split()[1:-2])
        kinds[kind] = kinds.get(kind, 0) + 1
        if given != wanted:
            wrong += 1
            if wrong <= 10:
                print("damaged: '%s': %s, and not %s" % (line, given, wanted))
    if run.returncode != 0 or next(told, None) is not None:
        wrong += 1
        print("damaged: status %d, or more lines than rows" % run.returncode)
    print("damaged: seed %d: %s" % (asked.seed, ", ".join("%d %s" % (kinds[kind], kind) for kind in sorted(kinds))))
    print("%d tried, %d wrong" % (len(rows), wrong))
    sys.exit(1 if wrong else 0)


main()
