"""A dump dealt to several programs side by side while it is written: blocks of whole lines to each in turn, so that what each takes rises as the
dump does, and each line is in one. That the whole rises is known of who writes it: kmc, kmc_list or kmc_merge. The system moves the bytes from pipe
to pipe, and none is copied here."""
import contextlib
import os

from futoncrane.feeding import widened, write_all
from futoncrane.ranged_dumps import LONGEST_LINE

# bytes that a program is given at a time, which its pipe holds
BLOCK = 1 << 19


def can_splice():
    """Whether the system, and this Python, move bytes from pipe to pipe."""
    return hasattr(os, "splice")


def end_of_line(source):
    """Reads the rest of a line, and what comes with it of the next one; both are empty where nothing is left."""
    text = b""
    while b"\n" not in text:
        more = os.read(source, LONGEST_LINE)
        if not more:
            return text, b""
        text += more
    line, feed, rest = text.partition(b"\n")
    return line + feed, rest


def moved(source, sink, size):
    """Moves so many bytes, or as many as are left, and answers how many."""
    done = 0
    while done < size:
        some = os.splice(source, sink, size - done)
        if some == 0:
            break
        done += some
    return done


def deal(source, sinks):
    """Deals what comes from a pipe to these pipes, and closes them. A program that reads no more ends it: its status tells why."""
    rest, number = b"", 0
    with contextlib.suppress(BrokenPipeError):
        while True:
            sink = sinks[number % len(sinks)]
            write_all(sink, rest)
            is_all = moved(source, sink, BLOCK) < BLOCK
            line, rest = end_of_line(source)
            write_all(sink, line)
            if is_all and not rest:
                break
            number += 1
    for it in sinks:
        os.close(it)


def pipes(many):
    """So many wide pipes: their ends for reading, and those for writing."""
    made = [os.pipe() for _ in range(many)]
    for _, sink in made:
        widened(sink)
    return [source for source, _ in made], [sink for _, sink in made]
