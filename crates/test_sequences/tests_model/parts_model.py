#!/usr/bin/env python3
"""Parts of chunks by their definitions, for the table of src/tests/records_and_parts/rows.rt.

    python3 parts_model.py > ../src/tests/records_and_parts/rows.rt

Each word is taken apart into its m-mers anew, and a record is written bit by bit.
"""
import itertools
import random

LETTERS = "ACGT"
COMPLEMENT = {"A": "T", "C": "G", "G": "C", "T": "A"}
MOST_WORDS = 256


def canonical(word):
    return min(word, "".join(COMPLEMENT[c] for c in reversed(word)))


def allowed(form):
    return not form.startswith("AAA") and not form.startswith("ACA") and "AA" not in form[1:]


def value(word):
    return sum(LETTERS.index(c) * 4 ** place for place, c in enumerate(reversed(word)))


def signature(word, m):
    forms = (canonical(word[i:i + m]) for i in range(len(word) - m + 1))
    return min((value(form) for form in forms if allowed(form)), default=4 ** m)


def record(letters, k):
    bits = "".join(format(LETTERS.index(c), "02b") for c in letters)
    bits += "0" * (-len(bits) % 8)
    return bytes([len(letters) - k] + [int(bits[i:i + 8], 2) for i in range(0, len(bits), 8)])


def super_kmers(read, k, m):
    """Pairs of a signature and the letters of a run, in the order of the read."""
    for is_bases, group in itertools.groupby(read.upper(), key=lambda c: c in LETTERS):
        segment = "".join(group)
        if not is_bases or len(segment) < k:
            continue
        place = 0
        words = [segment[i:i + k] for i in range(len(segment) - k + 1)]
        for s, run in itertools.groupby(words, key=lambda word: signature(word, m)):
            left = len(list(run))
            while left > 0:
                count = min(left, MOST_WORDS)
                yield s, segment[place:place + count + k - 1]
                place += count
                left -= count


def parts(reads, k, p, n):
    """For each bin that is not empty its words and its body."""
    bins = {}
    for read in reads:
        for s, letters in super_kmers(read, k, min(p, k)):
            words, body = bins.get(s % n, (0, b""))
            bins[s % n] = (words + len(letters) - k + 1, body + record(letters, k))
    return sorted(bins.items())


def random_read(source):
    """Reads with unknown symbols, lower case, and few or no bases."""
    kind = source.randrange(6)
    length = source.choice([0, 3, 10, 30, 45])
    if kind == 0:
        return source.choice("ACGT") * length
    letters = "ACGT" * 6 + ("N" if kind > 2 else "") + ("acgtn" if kind > 4 else "")
    return "".join(source.choice(letters) for _ in range(length))


def rows():
    source = random.Random(20150513)
    shapes = [(4, 8), (5, 5), (7, 5), (9, 8), (12, 5), (16, 8), (25, 8), (32, 8), (33, 7), (1, 5)]
    for number, (k, p) in enumerate(shapes * 3):
        n = [1, 7, 512, 2000][number % 4]
        reads = [random_read(source) for _ in range(source.randrange(1, 4))]
        yield k, p, n, reads
    yield 25, 8, 512, ["A" * 300]
    yield 25, 9, 512, ["A" * 300]
    yield 64, 9, 512, ["T" * 64]
    for number, (k, p) in enumerate([(25, 9), (11, 11), (31, 10), (12, 9), (64, 11)]):
        yield k, p, [7, 512][number % 2], [random_read(source) + random_read(source) for _ in range(2)]


def main():
    print("//! Random chunks with their parts, each part as bin, words and body: written by `tests_model/parts_model.py`,")
    print("//! which works them out by the definitions.")
    print()
    print("/// A row on each line: k, p, n, the reads with a comma behind each, and the parts with a semicolon behind each.")
    table = [(k, p, n, "".join(read + "," for read in reads), "".join(
        f"{place} {words} {body.hex()};" for place, (words, body) in parts(reads, k, p, n))) for k, p, n, reads in rows()]
    print("pub(super) fn rows() -> &'static str {")
    print("    \"\\")
    for k, p, n, reads, found in table:
        print(k, p, n, reads, found, sep="|")
    print("\"")
    print("}")


if __name__ == "__main__":
    main()
