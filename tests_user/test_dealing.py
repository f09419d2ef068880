"""A dump that is dealt to several programs while it comes through a pipe: each line goes whole to one of them, in its order."""
import os
import random
import threading

from futoncrane import dealing
from futoncrane.output import begun
from room import Skipped, program


def dealt(text, many, piece):
    """What each of so many readers gets of a text that is written in such pieces; the bytes of one turn are few."""
    if not dealing.can_splice():
        raise Skipped("this Python has no os.splice")
    source, sink = os.pipe()

    def write():
        with open(sink, "wb", buffering=0) as file:
            for place in range(0, len(text), piece):
                file.write(text[place:place + piece])

    sources, sinks = dealing.pipes(many)
    found = [b""] * many

    def read(number):
        with open(sources[number], "rb") as file:
            found[number] = file.read()

    readers = [begun(threading.Thread(target=read, args=(number,))) for number in range(many)]
    writer = begun(threading.Thread(target=write))
    dealing.deal(source, sinks)
    os.close(source)
    for it in [writer, *readers]:
        it.join()
    return found


def test_each_line_is_dealt_whole_to_one(room):
    source, block = random.Random(1), dealing.BLOCK
    lines = [b"%064d\t%d\n" % (number, source.choice([1, 255, 1 << 62])) for number in range(3000)]
    for text in (b"", b"\n", lines[0], b"".join(lines[:2]), b"".join(lines), b"".join(lines)[:-1], b"".join(lines)[:-50]):
        for many, size, piece in ((1, 100, 1000), (2, 1, 7000), (3, 85, 85), (3, 4096, 65536), (4, 1 << 19, 1 << 20)):
            dealing.BLOCK = size
            found = dealt(text, many, piece)
            places = {line: place for place, line in enumerate(text.splitlines(keepends=True))}
            taken = [[places[line] for line in it.splitlines(keepends=True)] for it in found]
            assert sorted(sum(taken, [])) == list(range(len(places))), (len(text), many, size)
            assert all(it == sorted(it) for it in taken)
    dealing.BLOCK = block


def test_a_program_that_reads_no_more_ends_the_dealing(room):
    program("kmc_db")
    # the first line of the second block is none of a dump
    block, dealing.BLOCK = dealing.BLOCK, 100
    room.stand_in("#!/bin/sh\nfor it in $(seq 10000); do printf 'ACGTACGTACGTACGTACGTACGTACGTA\\t1\\n'; done\n", "kmc_list")
    os.symlink(program("kmc_cut"), room.path("bin/kmc_cut"))
    room.refuses(1, "kmc", words=["histogram", "-q", "--slices", "2", room.write("reads", b"@a\nACGT\n+\nIIII\n")])
    dealing.BLOCK = block
