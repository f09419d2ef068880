#!/usr/bin/env python3
"""Refuses each allocation of runs of ./kmc in turn, and then each together with all that follow it.

usage: hostile.py [--workers N]

bench/refuse_memory.c, which is compiled here, stands before the C library's malloc and its kin. For each text below, with one and
with four threads, the call number 1, 2, 3 .. of a run is refused, until ten runs in a row met no refusal. Of the two longest rows
only one number in several is tried. An answer is right where it is

- the whole answer: the program could do without;
- the line 'kmc: out of memory' with status 1 and nothing on standard output; or
- the usage line with status 2, as long as nothing else was refused: arguments that cannot be read are wrong usage.

The whole answer is that of the model in fuzz.py. The variable KMC names another program.

Then the same calls of `try_hostile growths` are refused one by one. It makes the call that met the refusal once more, with what came
back, and has to print the front of what crates/try_hostile/stdout holds and to end with status 0. The variable HOSTILE names another
program.
"""
import argparse
import collections
import hashlib
import multiprocessing
import os
import random
import subprocess
import sys
import tempfile

sys.dont_write_bytecode = True  # no files beside the scripts
import fuzz

IN_A_ROW = 10  # runs without a refusal that end a row
LONG_OUTPUT = 4096
BATCH = 20  # numbers that a worker is given at a time
SPARSE = 41  # one number in so many is tried of the longest rows, and of all long ones where all later calls are refused too
TOP = os.path.join(os.path.dirname(os.path.abspath(__file__)), "..")
HOSTILE = os.environ.get("HOSTILE", os.path.join(TOP, "try_hostile"))
OUT_OF_MEMORY = (1, b"", b"kmc: out of memory\n")
USAGE = (fuzz.USAGE[1], b"", fuzz.USAGE[0] + b"\n")


def simulated(number, length, one_in=1):
    """FASTQ of reads from a genome of 2000 bases, on either strand; all but one in so many are empty, and take no memory."""
    source = random.Random(3)
    genome = source.randbytes(2000).translate(fuzz.BASES)
    records = []
    for place in range(number):
        start = source.randrange(len(genome) - length)
        read = genome[start:start + length] if place % one_in == 0 else b""
        records.append(b"@r\n" + (fuzz.reverse(read) if source.random() < 0.5 else read) + b"\n+\n" + b"I" * len(read) + b"\n")
    return b"".join(records)


def far_apart(number, symbols):
    """FASTQ of so many reads, all but one of them empty: as many words, nearly all different, as the one has symbols."""
    read = random.Random(4).randbytes(symbols).translate(fuzz.BASES)
    return b"@r\n\n+\n\n" * (number - 1) + b"@r\n" + read + b"\n+\n" + b"I" * symbols + b"\n"


def one_read(read):
    return b"@r\n" + read + b"\n+\n" + b"I" * len(read) + b"\n"


# name, options, text, one number in how many is tried
ROWS = (
    ("empty text", [], b"", 1),
    ("a read twice", [], one_read(b"GATTACAGATTACAGATTACACCGGT") * 2, 1),
    ("300 letters A", [], one_read(b"A" * 300), 1),
    ("FASTA with blank lines", [b"-fa", b"-k4", b"-ci1"], b"\n>a\nACGT\n\nACGT", 1),
    ("two reads, 7 bins", [b"-k4", b"-ci1", b"-n7"], one_read(b"ACGTACGT") * 2, 1),
    ("two equal reads", [b"-k5", b"-n8"], b"@r\nACGTACGTTTG\n+\nIIIIIIIIIII\n" * 2, 1),
    ("FASTA, several lines", [b"-fm", b"-k5", b"-ci1", b"-n64"], b">g\nACGTA\nCGTTTG\n\n>h\nNNACG\nTACGTTNACCAGT\nTT\n", 1),
    ("faulty text", [b"-k5"], b"@r\nACGTACG\n+\nIIIIIII\n@s\nACGT\n+\nIII\n", 1),
    ("wrong options", [b"-k5", b"-ci1", b"-sr99"], b"", 1),
    ("100 reads, all bins", [b"-k25"], simulated(100, 80), 1),
    ("4200 reads", [b"-k11", b"-n8"], simulated(4200, 30, 3), 1),
    ("17000 reads", [b"-k11", b"-n8"], simulated(17000, 30), SPARSE),
    ("3 rounds, 2 waves", [b"-k14", b"-ci1", b"-n8"], far_apart(280000, 140000), 1),
    ("a giant", [b"-k25", b"-ci1", b"-n1"], far_apart(1, 1300000), 5),
)


def in_short(answer):
    """An answer with the front and a sum of its output in place of an output that is long, which takes time to hand on."""
    status, output, error = answer
    return status, output if len(output) <= LONG_OUTPUT else output[:LONG_OUTPUT] + hashlib.sha256(output).digest(), error


def refused(task):
    """For each number: whether memory was refused, and the answer."""
    library, words, text, everything, numbers = task
    answers = []
    for number in numbers:
        environment = dict(os.environ, LD_PRELOAD=library, REFUSE_MEMORY=str(number))
        if everything:
            environment["REFUSE_ALL"] = "yes"
        told = fuzz.memory_file()
        answer = fuzz.run(words, text, False, environment, ((told, 9),))
        answers.append((number, bool(fuzz.content_of(told)), in_short(answer)))
        os.close(told)
    return answers


def answers_in_turn(pool, workers, step, task):
    """The answers by their numbers, without end."""
    start = 1
    while True:
        batches = []
        for _ in range(4 * workers):
            batches.append(task + (range(start, start + BATCH * step, step),))
            start += BATCH * step
        for answers in pool.map(refused, batches, 1):
            yield from answers


def row(pool, asked, library, name, words, text, step, everything):
    """Tries one row. The number of tries, and of wrong answers."""
    whole = in_short(fuzz.answer_of(words, text))
    kinds = collections.Counter()
    unmet = number = 0
    for number, met, answer in answers_in_turn(pool, asked.workers, step, (library, words, text, everything)):
        unmet = 0 if met else unmet + 1
        if answer == whole:
            kinds["whole answers" if met else "without a refusal"] += 1
        elif met and answer == OUT_OF_MEMORY:
            kinds["out of memory"] += 1
        elif met and answer == USAGE and not kinds["out of memory"]:
            kinds["usage"] += 1
        else:
            kinds["wrong"] += 1
            print("hostile: %s, %s: call %d refused%s: status %d, output %s, error %s" % (
                name, words, number, " and all later ones" if everything else "", answer[0],
                fuzz.shortened(answer[1]), fuzz.shortened(answer[2])))
        if unmet == IN_A_ROW:
            break
    print("hostile: %-22s %-10s %-14s calls 1 to %5d: %s" % (
        name, b" ".join(words[-2:]).decode(), "and all later" if everything else "one refused", number,
        ", ".join("%d %s" % (count, kind) for kind, count in kinds.items() if count)), flush=True)
    return sum(kinds.values()), kinds["wrong"]


def again(library):
    """Refuses each call of `try_hostile growths`. The number of tries, and of wrong answers."""
    with open(os.path.join(TOP, "crates", "try_hostile", "stdout"), "rb") as file:
        whole = file.read().partition(b"1600 parts")[0]
    kinds = collections.Counter()
    unmet = number = 0
    while unmet < IN_A_ROW:
        number += 1
        told = fuzz.memory_file()
        environment = dict(os.environ, LD_PRELOAD=library, REFUSE_MEMORY=str(number))
        status, output, error = fuzz.run(["growths"], b"", False, environment, ((told, 9),), HOSTILE)
        met = bool(fuzz.content_of(told))
        os.close(told)
        unmet = 0 if met else unmet + 1
        if status != 0 or output != whole or error.count(b"\n") > met:
            kinds["wrong"] += 1
            print("hostile: try_hostile growths: call %d refused: status %d, output %s, error %s" % (
                number, status, fuzz.shortened(output), fuzz.shortened(error)))
        elif not met:
            kinds["without a refusal"] += 1
        else:
            kinds[error.decode().split(" ")[0] or "between"] += 1
    print("hostile: %-22s %-10s %-14s calls 1 to %5d: %s" % (
        "calls made again", "", "one refused", number, ", ".join("%d %s" % (count, kind) for kind, count in kinds.items())), flush=True)
    return sum(kinds.values()), kinds["wrong"]


def main():
    asked = argparse.ArgumentParser(description=__doc__.splitlines()[0])
    asked.add_argument("--workers", type=int, default=min(4, os.cpu_count() or 1))
    asked = asked.parse_args()
    tries = wrong = 0
    with tempfile.TemporaryDirectory() as work, multiprocessing.Pool(asked.workers) as pool:
        library = os.path.join(work, "refuse_memory.so")
        source = os.path.join(os.path.dirname(os.path.abspath(__file__)), "refuse_memory.c")
        subprocess.run(["cc", "-Wall", "-Wextra", "-O1", "-shared", "-fPIC", "-o", library, source], check=True)
        for everything in (False, True):
            for threads in (b"1", b"4"):
                for name, words, text, one_in in ROWS:
                    if b"-sr99" not in words:
                        words = words + [b"-sp" + threads, b"-sr" + threads]
                    step = SPARSE if everything and len(text) > 10**5 else one_in
                    done = row(pool, asked, library, name, words, text, step, everything)
                    tries, wrong = tries + done[0], wrong + done[1]
        done = again(library)
        tries, wrong = tries + done[0], wrong + done[1]
    print("%d tried, %d wrong" % (tries, wrong))
    sys.exit(1 if wrong else 0)


main()
