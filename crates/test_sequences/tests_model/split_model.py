#!/usr/bin/env python3
"""Signatures and cuts by their definitions, for the table of src/tests/signatures_and_cuts/rows.rt.

    python3 split_model.py > ../src/tests/signatures_and_cuts/rows.rt

Nothing here rolls or keeps a window: each word is taken apart into its m-mers anew.
"""
import itertools
import random

LETTERS = "ACGT"
COMPLEMENT = {"A": "T", "C": "G", "G": "C", "T": "A"}
MOST_WORDS = 256


def reverse_complement(word):
    return "".join(COMPLEMENT[c] for c in reversed(word))


def canonical(word):
    return min(word, reverse_complement(word))


def allowed(mmer):
    form = canonical(mmer)
    return not form.startswith("AAA") and not form.startswith("ACA") and "AA" not in form[1:]


def value(mmer):
    number = 0
    for c in mmer:
        number = 4 * number + LETTERS.index(c)
    return number


def windows(text, n):
    return [text[i:i + n] for i in range(len(text) - n + 1)]


def signature(word, m):
    return min((value(canonical(v)) for v in windows(word, m) if allowed(v)), default=4 ** m)


def cut(text, k, m):
    """The runs as pairs: how many words, and their signature."""
    runs = []
    for s, group in itertools.groupby(signature(w, m) for w in windows(text, k)):
        words = len(list(group))
        while words > MOST_WORDS:
            runs.append((MOST_WORDS, s))
            words -= MOST_WORDS
        runs.append((words, s))
    return runs


def random_text(source, length):
    """Even letters, many A and T, or a repeated unit."""
    kind = source.randrange(3)
    if kind == 0:
        return "".join(source.choice(LETTERS) for _ in range(length))
    if kind == 1:
        return "".join(source.choice("AAATTTCG") for _ in range(length))
    unit = "".join(source.choice(LETTERS) for _ in range(source.randrange(1, 6)))
    return (unit * length)[:length]


def rows():
    source = random.Random(20150512)
    sizes = [(1, 1), (2, 1), (2, 2), (3, 3), (4, 2), (5, 3), (5, 5), (7, 5), (8, 8), (9, 7)]
    sizes += [(12, 8), (16, 3), (25, 8), (25, 5), (31, 7), (32, 8), (32, 6), (33, 8), (64, 8), (64, 1)]
    longer = [(9, 9), (11, 11), (12, 10), (25, 9), (31, 11), (32, 10), (33, 9), (64, 11), (10, 9), (3, 2), (25, 2), (25, 1)]
    for k, m in sizes * 2 + longer:
        length = k + source.choice([0, 1, 7, 20, 35])
        yield k, m, random_text(source, length)


def main():
    print("//! Random segments with their runs, each run as its number of words and its signature: written by")
    print("//! `tests_model/split_model.py`, which works them out by the definitions.")
    print()
    print("/// A row on each line: k, m, the letters, and the runs.")
    print("pub(super) fn rows() -> &'static str {")
    print("    \"\\")
    for k, m, text in rows():
        runs = " ".join(f"{words}:{s}" for words, s in cut(text, k, m))
        print(k, m, text, runs, sep="|")
    print("\"")
    print("}")


if __name__ == "__main__":
    main()
