"""--first-min, --first-max, --second-min and --second-max: a k-mer outside them is as if its dump did not list it."""
import json
import random

from room import MOST, READS, content, program
from test_joins import OWN, a_dump, joined, text_of, within
from test_notes import WHOLE, halves

COMMANDS = {"union": ["union"], "intersect": ["intersect"], "subtract": ["subtract"], "counters-subtract": ["subtract", "--counts"]}


def test_limits_of_the_dumps_are_kept(room):
    program("kmc_db")
    dice = random.Random(8)
    for number in range(40):
        k = dice.choice((1, 4, 31, 64))
        first, second = a_dump(dice, k), a_dump(dice, k)
        names = room.write("first", text_of(first)), room.write("second", text_of(second))
        operation = sorted(OWN)[number % len(OWN)]
        limits = [dice.choice((None, 0, 2, 5, 60)), dice.choice((None, 3, 60, MOST)), dice.choice((None, 0, 2, 5, 60)), dice.choice((None, 3, 60, MOST))]
        words = [it for name, limit in zip(("--first-min", "--first-max", "--second-min", "--second-max"), limits) if limit is not None
                 for it in (name, "none" if limit == MOST else str(limit))]
        one, two = (within(counts, least or 0, MOST if greatest is None else greatest)
                    for counts, least, greatest in ((first, *limits[:2]), (second, *limits[2:])))
        wanted = text_of({word: n for word, n in joined(operation, OWN[operation], one, two).items() if 0 < n <= MOST})
        room.counts(wanted, *COMMANDS[operation], *words, *names)


def test_limits_of_the_dumps_are_noted(room):
    program("kmc_db")
    halves(room)
    for it in "ab":
        room.counts(b"", "count", "-k25", *WHOLE, "-o", it + ".dump", it + ".fastq")
    room.counts(b"", "intersect", "--first-min", "3", "--second-max", "9", "-o", "out", "a.dump", "b.dump")
    note = json.loads(content(room.path("out.json")))
    assert (note["min"], note["max"]) == (3, 9), note
    # KMC's words are taken too
    room.counts(content(room.path("out")), "intersect", "-lci3", "-rcx9", "a.dump", "b.dump")


def test_limits_of_the_dumps_are_refused(room):
    program("kmc_db")
    room.counts(b"", "count", "-k25", "--cap", "5", "-o", "a.dump", READS)
    room.write("b.dump", content(room.path("a.dump")))
    room.refuses(1, "a.dump shows no count above 5, so it does not tell which k-mers are within --min 9", words=["union", "--first-min", "9", "a.dump", "b.dump"])
    room.refuses(2, "value of --second-max is out of range", words=["union", "--second-max", "-1", "a.dump", "b.dump"])
    room.refuses(2, "no option --first-min", words=["merge", "--first-min", "9", "a.dump", "b.dump"])
