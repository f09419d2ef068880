"""Dumps that several threads make range by range: more than 128 Ki k-mers each."""
import functools
import random
import subprocess
import time

from room import LONG, plainly, program

K = 21


@functools.cache
def reads_and_dump():
    """Reads whose dump has five ranges, and the dump."""
    source = random.Random(11)
    text = b"".join(b"@r\n%s\n+\n%s\n" % ("".join(source.choices("ACGT", k=1000)).encode(), b"I" * 1000) for _ in range(700))
    return text, plainly(text, K, 1)


def started(room, threads):
    text, wanted = reads_and_dump()
    room.write("reads.fastq", text)
    words = [program("kmc"), "-k%d" % K, "-ci1", "-sr%d" % threads]
    with open(room.path("reads.fastq"), "rb") as reads:
        return subprocess.Popen(words, stdin=reads, stdout=subprocess.PIPE, stderr=subprocess.PIPE), wanted


def test_any_number_of_threads_makes_the_same_dump(room):
    for threads in (1, 2, 3, 4, 5, 16):
        child, wanted = started(room, threads)
        found = child.communicate(timeout=LONG)
        assert (child.returncode, found[1]) == (0, b"") and found[0] == wanted, threads


def test_a_reader_that_has_enough_ends_all_threads(room):
    for threads, enough in ((1, 5000000), (2, 1), (4, 3200000), (4, 9000000), (16, 12000000)):
        child, wanted = started(room, threads)
        with child:
            front = child.stdout.read(enough)
            child.stdout.close()
            told = child.stderr.read()
        assert (child.returncode, told) == (1, b"") and front == wanted[:enough], (threads, enough)


def test_threads_wait_for_a_slow_reader(room):
    child, wanted = started(room, 4)
    with child:
        front = child.stdout.read(4000000)
        time.sleep(1)
        found = front + child.stdout.read()
        told = child.stderr.read()
    assert (child.returncode, told) == (0, b"") and found == wanted
