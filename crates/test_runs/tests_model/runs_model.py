#!/usr/bin/env python3
"""Random texts with the dumps that runs over them must give, for the table of src/tests/runs/random_rows.rt.

    python3 runs_model.py > ../src/tests/runs/random_rows.rt

The reads of a text are made first, so no text is taken apart here, and bench/count_plainly.py counts them.
"""
import os
import random
import subprocess
import sys

COUNT = os.path.join(os.path.dirname(os.path.abspath(__file__)), "..", "..", "..", "bench", "count_plainly.py")
LENGTHS = [1, 2, 3, 4, 5, 7, 9, 11, 12, 16, 21, 25, 31, 32, 33, 40, 48, 55, 63, 64]
SIZES = ["-sp1 -sr1", "-sp2 -sr3", "-sp5 -sr2", "-sp16 -sr16"]

HEAD = '''//! Random texts with the dumps that runs over them must give, written by `tests_model/runs_model.py`, whose dumps are those of
//! `bench/count_plainly.py`. Each row has three lines: the options, the text and the dump; `/` stands for the end of a line,
//! `^` for a carriage return and `:` for a tab.

/// How many rows there are.
pub(super) const COUNT: usize = %d;

/// The rows.
pub(super) const ROWS: &str = "\\
'''


def one_read(source, k):
    """Letters of which words come again, with some that are no bases and some in lower case."""
    kinds = source.choice(["A", "AT", "ACG", "ACGT", "ACGT"])
    unit = "".join(source.choice(kinds) for _ in range(source.randrange(1, 13)))
    read = (unit * 80)[:source.randrange(1, k + 30)]
    read = "".join(source.choice("ACGTN") if source.randrange(12) == 0 else c for c in read)
    return "".join(c.lower() if source.randrange(6) == 0 else c for c in read)


def fastq(source, reads):
    end = source.choice(["/", "/", "^/"])
    text = "".join("@r%d%s%s%s+%s%s%s" % (i, end, read, end, end, "I" * len(read), end) for i, read in enumerate(reads))
    return text if source.randrange(2) else text[:-len(end)]


def fasta(source, reads):
    end = source.choice(["/", "/", "^/"])
    width = source.randrange(1, 40)
    text = ""
    for i, read in enumerate(reads):
        text += ">r%d" % i + end + "".join(read[j:j + width] + end for j in range(0, len(read), width))
    return text


def dump(reads, k, limits, apart):
    text = "".join("@r\n%s\n+\n%s\n" % (read, "I" * len(read)) for read in reads)
    words = [sys.executable, COUNT, str(k)] + [str(n) for n in limits] + (["apart"] if apart else [])
    made = subprocess.run(words, input=text, capture_output=True, text=True, check=True).stdout
    return made.replace("\n", "/").replace("\t", ":")


def main():
    source = random.Random(15)
    print(HEAD % len(LENGTHS), end="")
    for number, k in enumerate(LENGTHS):
        reads = [one_read(source, k) for _ in range(source.randrange(1, 7))]
        reads += [source.choice(reads) for _ in range(source.randrange(3))]
        limits = (source.randrange(1, 3), source.choice([3, 20, 1000]), source.choice([1, 2, 255, 100000]))
        apart = source.randrange(3) == 0
        form, flag = [(fastq, "-fq"), (fasta, "-fa"), (fasta, "-fm")][number % 3]
        words = [flag, "-k%d" % k, "-ci%d" % limits[0], "-cx%d" % limits[1], "-cs%d" % limits[2]]
        words += ["-p%d" % source.randrange(5, 12), "-n%d" % source.choice([1, 7, 512])] + ["-b"] * apart
        print(" ".join(words + [source.choice(SIZES)]))
        print(form(source, reads))
        print(dump(reads, k, limits, apart))
    print('";')


main()
