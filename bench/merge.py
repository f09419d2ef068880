#!/usr/bin/env python3
"""Tries kmc_merge on dumps of random splits of random reads, and compares with the direct count of all reads, made here.

usage: bench/merge.py [--runs N] [--seed N]    with the program in $KMC_MERGE, else ./kmc_merge

Each run deals random reads to some parts, of which some stay empty, counts each part by itself, merges the dumps by the program
under random limits and compares what it writes, byte for byte. Then dumps are damaged in one line, and the program must name
the file and that line, end with status 1 and write a front of the dump. Last, each allocation of some merges is refused in turn,
and then each with all that follow it: the answer is the whole one, or one of want of memory with nothing written. The last line
tells how many runs were tried and how many were wrong; the status is 0 where none was.
"""
import argparse
import collections
import os
import random
import subprocess
import sys
import tempfile

TOP = os.path.dirname(os.path.dirname(os.path.abspath(__file__)))
MERGE = os.environ.get("KMC_MERGE") or os.path.join(TOP, "kmc_merge")
MOST = 1 << 63


def count(reads, k):
    """How often each word of k letters stands in the reads."""
    words = collections.Counter()
    for read in reads:
        words.update(read[place:place + k] for place in range(len(read) - k + 1))
    return words


def dump(counts, least, greatest, cap):
    """The dump of the counts within the limits."""
    return "".join("%s\t%d\n" % (word, min(number, cap)) for word, number in sorted(counts.items()) if least <= number <= greatest and number)


def merged(directory, texts, options, **given):
    """What the program does with these texts: its status, output and message."""
    names = []
    for number, text in enumerate(texts):
        names.append("part-%d" % number)
        with open(os.path.join(directory, names[-1]), "w") as file:
            file.write(text)
    done = subprocess.run([MERGE] + options + names, cwd=directory, capture_output=True, text=True, **given)
    return done.returncode, done.stdout, done.stderr


def damaged(dice, lines, k):
    """The lines with one of them at fault, and its number from 1."""
    place = dice.randrange(len(lines))
    word, number = lines[place].rstrip("\n").split("\t")
    kinds = ["%s\t0\n" % word, "%s\t0%s\n" % (word, number), "%s\t%d\n" % (word, 1 << 64), "%s %s\n" % (word, number), "%s\t%s\r\n" % (word, number),
             "%s\t\n" % word, "\t%s\n" % number, "\n", "%s\t+%s\n" % (word, number), "%s\t%s\n" % (word.lower(), number), "%s\t%s\n" % ("N" + word[1:], number),
             "%s\t%s x\n" % (word, number), "%s\t%s\n" % (word * 70, number), "%s\t%s\n" % (word, "1" * 30)]
    if place:
        kinds += [lines[place - 1], "%s\t%s\n" % (word + "A", number), "%s\t%s\n" % ("A" * k, 1)]
    if place == len(lines) - 1:
        kinds.append("%s\t%s" % (word, number))
    return lines[:place] + [dice.choice(kinds)] + lines[place + 1:], place + 1


def run(dice, directory):
    """One run; answers what differs, or nothing."""
    k = dice.choice((1, 2, 3, 5, 15, 31, 32, 33, 63, 64))
    few = ["".join(dice.choice("ACGT") for _ in range(dice.randrange(k + 40))) for _ in range(8)]
    reads = [dice.choice(few) for _ in range(dice.randrange(30))]
    parts = dice.choice((1, 2, 3, 4, 7, 8, 20, 100))
    dealt = [[] for _ in range(parts)]
    for read in reads:
        dealt[dice.randrange(parts)].append(read)
    texts = [dump(count(part, k), 1, MOST, MOST) for part in dealt]
    limits = (dice.choice((0, 1, 2, 3)), dice.choice((2, 5, 10**9, MOST)), dice.choice((1, 3, 255, MOST)))
    options = ["-ci%d" % limits[0], "-cx%d" % limits[1], "-cs%d" % limits[2]]
    whole = dump(count(reads, k), *limits)
    status, text, message = merged(directory, texts, options)
    if (status, text, message) != (0, whole, ""):
        return "a merge of %d parts at k %d: status %d, %s" % (parts, k, status, message)
    some = [number for number, part in enumerate(texts) if part]
    if not some:
        return None
    chosen = dice.choice(some)
    lines, line = damaged(dice, texts[chosen].splitlines(True), k)
    status, text, message = merged(directory, texts[:chosen] + ["".join(lines)] + texts[chosen + 1:], options)
    if status != 1 or not message.startswith("kmc_merge: part-%d: line %d " % (chosen, line)) or not whole.startswith(text):
        return "line %d of part %d is %r at k %d: status %d, %s" % (line, chosen, lines[line - 1], k, status, message)
    return None


def refused(directory, library, texts, options, number, everything):
    """Whether memory was refused at this call, and the answer."""
    environment = dict(os.environ, LD_PRELOAD=library, REFUSE_MEMORY=str(number))
    if everything:
        environment["REFUSE_ALL"] = "yes"
    told = os.memfd_create("told")
    answer = merged(directory, texts, options, env=environment, preexec_fn=lambda: os.dup2(told, 9), close_fds=False)
    met = os.fstat(told).st_size > 0
    os.close(told)
    return met, answer


def allocations(dice, directory):
    """Each allocation refused in turn; answers how many runs there were, and those that went wrong."""
    library = os.path.join(directory, "refuse_memory.so")
    subprocess.run(["cc", "-shared", "-fPIC", "-O2", "-o", library, os.path.join(TOP, "bench", "refuse_memory.c")], check=True)
    reads = ["".join(dice.choice("ACGT") for _ in range(60)) for _ in range(20)]
    parts = [dump(count(reads[place::3], 25), 1, MOST, MOST) for place in range(3)]
    rows = ((parts, []), (parts[:1], ["-ci1"]), ([""], []), (parts * 10, ["-ci1", "-cs9"]), ([parts[0], parts[1] + "AC\t1\n"], []), (parts, ["-x"]), ([], []))
    runs, wrong = 0, []
    for texts, options in rows:
        whole = merged(directory, texts, options)
        for everything in (False, True):
            number, without = 1, 0
            while without < 3:
                met, answer = refused(directory, library, texts, options, number, everything)
                runs, number, without = runs + 1, number + 1, 0 if met else without + 1
                given_up = answer[0] == 1 and answer[1] == "" and (answer[2] == "kmc_merge: out of memory\n" or answer[2].endswith(": cannot be opened\n"))
                if answer != whole and not (met and (given_up or answer[:2] == (2, ""))):
                    wrong.append("call %d of a merge of %d files refused: %r" % (number - 1, len(texts), answer))
    return runs, wrong


def main():
    parser = argparse.ArgumentParser(usage=__doc__)
    parser.add_argument("--runs", type=int, default=1000)
    parser.add_argument("--seed", type=int, default=1)
    asked = parser.parse_args()
    dice = random.Random(asked.seed)
    with tempfile.TemporaryDirectory() as directory:
        for number in range(asked.runs):
            fault = run(dice, directory)
            if fault:
                print("merge: run %d: %s" % (number, fault))
                return 1
        tries, wrong = allocations(dice, directory)
    for line in wrong:
        print("merge: " + line)
    print("merge: %d tried, %d wrong" % (asked.runs + tries, len(wrong)))
    return 1 if wrong else 0


if __name__ == "__main__":
    sys.exit(main())
