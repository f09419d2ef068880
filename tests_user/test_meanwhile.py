"""What is done while other work goes on: lines of an answer are counted as they are written, and files of the meantime are removed."""
import contextlib
import json
import os
import random
import threading
import time

from futoncrane.output import Flush, Lines, LinesOfParts, begun
from futoncrane.removing import Remover
from room import content, program, wait_until


def test_lines_are_counted_while_a_file_grows(room):
    source = random.Random(5)
    for pieces in ([], [b""], [b"ACGT\t2\n"], [b"\n" * source.randint(0, 2000) + b"A" * source.randint(0, 9) for _ in range(20)]):
        name = room.path(room.write("growing", b""))
        counter = begun(Lines(name, 0, grows=True))
        with open(name, "wb", buffering=0) as file:
            for piece in pieces:
                file.write(piece)
                time.sleep(0.01)
        counter.over.set()
        counter.join()
        assert counter.count == b"".join(pieces).count(b"\n"), pieces


@contextlib.contextmanager
def silent_threads():
    """That no thread ends by an exception, of which Python would tell the user."""
    said, before = [], threading.excepthook
    threading.excepthook = said.append
    try:
        yield
    finally:
        threading.excepthook = before
    assert not said, said


def test_a_file_that_is_made_later_is_flushed(room):
    flushed, real = [], os.fdatasync
    os.fdatasync = lambda file: flushed.append(os.fstat(file).st_size) or real(file)
    try:
        with silent_threads():
            flush = Flush(room.path("later"))
            flush.SECONDS = 0.01
            begun(flush)
            time.sleep(0.05)
            assert not flushed
            room.write("later", b"ACGT\t2\n")
            wait_until(lambda: flushed, "a flush")
            flush.end()
            assert set(flushed) <= {0, 7}, flushed
            for path in (room.path("none/file"), room.path("later")):
                begun(Flush(path)).end()
    finally:
        os.fdatasync = real


def test_many_lines_are_counted_with_and_without_wc(room):
    name, lines = room.path(room.write("many", b"ACGT\t2\n" * 400_000)), 400_000
    paths, before = [os.environ["PATH"], room.path("bin")], os.environ["PATH"]
    os.mkdir(paths[1])
    for said in ("exit 1", "echo ACGT", "cat > /dev/null; exit 3", None):
        room.stand_in("#!/bin/sh\n%s\n" % said, "wc") if said else os.remove(room.path("bin/wc"))
        for path in paths:
            os.environ["PATH"] = path
            try:
                for place in (0, 7, 7 * 399_000, 7 * lines):
                    counter = begun(Lines(name, place))
                    counter.join()
                    assert counter.count == lines - place // 7, (said, path, place, counter.count)
            finally:
                os.environ["PATH"] = before


def test_lines_of_several_files_are_added(room):
    names = [room.path(room.write("part.%d" % number, b"A\t2\n" * number)) for number in range(4)]
    whole = LinesOfParts([begun(Lines(it, 0)) for it in names])
    whole.join()
    assert whole.count == 6, whole.count
    for other in (room.path("gone"), "/dev/null"):
        with silent_threads():
            whole = LinesOfParts([begun(Lines(it, 0)) for it in [*names, other]])
            whole.join()
        assert whole.count is None, other


def test_files_are_removed_meanwhile(room):
    names = [room.path(room.write("part.%d" % number, b"A\t2\n")) for number in range(4)]
    os.mkdir(room.path("folder"))
    room.write("folder/file", b"A")
    remover = Remover()
    remover.remove(*names[:2], room.path("gone"))
    remover.remove(room.path("folder"))
    remover.end()
    assert [os.path.exists(it) for it in names] == [False, False, True, True] and not os.path.exists(room.path("folder"))


def test_the_lines_of_a_count_are_told(room):
    for name in ("kmc", "kmc_cut", "kmc_list", "kmc_merge"):
        program(name)
    source = random.Random(6)
    room.write("reads.fa", b">one\n" + "".join(source.choices("ACGT", k=700_000)).encode() + b"\n")
    for words in (["--slices", "3"], ["--slices", "3", "-t", "1"], ["--memory", "16G"]):
        told = room.run("count", "-k31", "--min", "1", "-o", "dump", *words, "reads.fa")
        lines = content(room.path("dump")).count(b"\n")
        note = json.loads(content(room.path("dump.json")))
        assert told.status == 0 and note["totals"]["listed"] == lines > 690_000, (words, lines, note)
        assert set(os.listdir(room.folder)) == {"tmp", "reads.fa", "dump", "dump.json"}, words
