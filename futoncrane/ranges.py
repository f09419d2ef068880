"""Dumps merged or joined by ranges of k-mers in several programs side by side. A range begins and ends at a line of each dump, and the k-mers
of a range are above those of the range before. Each program refuses lines that do not rise within its range, and so what was taken of a dump
rises as a whole. Where a program refuses, one program is given all, whose fault tells the line. A database is joined so too, by ranges of the
entries of its table.

Slices share no k-mer, and each of their lines is written as it stands: a range takes as many bytes as in the dumps, and each program writes its
own at their place in the answer. What a join writes is as long as it comes out: it is put behind that of the range before."""
import collections
import contextlib
import itertools
import os
import subprocess
import tempfile

from futoncrane import databases, folders, places
from futoncrane.children import ended
from futoncrane.faults import Ended, Fault
from futoncrane.progress import Watch, merging, read_by
from futoncrane.ranged_databases import RangedDatabase, Unfit
from futoncrane.ranged_dumps import RangedDump

# fewer bytes are merged by one program; so many pipes lead to all of them at most
LEAST_BYTES, MOST_PIPES = 1 << 24, 256
# a range of a join has about so many bytes of the dumps, since what it writes is kept until it is its turn
RANGE_BYTES = 1 << 26
# the tables of databases that are written for the ranges have so many times the bytes of the dumps at most
MOST_TABLES = 1


def ranges_of(operands, many):
    """For each range its part of each operand, which may have no k-mer of it."""
    largest = max(operands, key=lambda it: it.size)
    letters = min((it.letters for it in operands if it.letters), default=None)
    bounds = sorted({it[:letters] for it in largest.bounds(many)})
    starts = [0] * len(operands)
    for bound in [*bounds, None]:
        ends = [it.end if bound is None else it.place_of(bound) for it in operands]
        if starts != ends:
            yield [it.part(start, end) for it, start, end in zip(operands, starts, ends)]
        starts = ends


def lengths_of(ranges):
    """How many letters the k-mers of these ranges have, by the first one of each part: one number, or none where no part has a k-mer. More than one
    are those of operands that do not fit each other."""
    return {it.length() for parts in ranges for it in parts} - {None}


def size_of(operands):
    """How many bytes of lines they have, or their dumps."""
    return sum(it.size for it in operands)


class Ranged:
    """A program that reads a range of each dump, and writes to `sink`. `path` begins the names of files that are made for it."""

    def __init__(self, words, parts, sink, children, path=""):
        self.children, self.parts, self.bytes = children, parts, sum(it.bytes for it in parts)
        with contextlib.ExitStack() as made:
            given = []
            for number, it in enumerate(parts):
                made.callback(it.drop)
                given.append(it.given("%s.%d" % (path, number)))
            sources = [it.source for it in parts]
            self.program = children.start([*words, *given], pass_fds=sources, stdin=subprocess.DEVNULL, stdout=sink)
            made.pop_all()
        for it in parts:
            it.begin()

    def is_ended_well(self):
        """Waits for the end of the program, and tells whether it did its work, on all that it was to be given."""
        status, _ = ended(self.program)
        self.children.forget(self.program)
        are_taken = [it.is_taken() for it in self.parts]
        for it in self.parts:
            it.drop()
        return status == 0 and all(are_taken)


class Merger(Ranged):
    """A program that merges a range to its place in the answer."""

    def __init__(self, words, parts, path, place, children):
        self.sink = os.open(path, os.O_WRONLY | os.O_CLOEXEC)
        os.lseek(self.sink, place, os.SEEK_SET)
        super().__init__(words, parts, self.sink, children)
        self.end = place + self.bytes

    def is_done(self):
        """Waits for the end of the program, and tells whether it wrote what it was to write."""
        is_done = self.is_ended_well() and os.lseek(self.sink, 0, os.SEEK_CUR) == self.end
        os.close(self.sink)
        return is_done


class Joiner(Ranged):
    """A program whose answer for a range is in `made` in the end, which is closed once that was taken."""

    def __init__(self, words, parts, made, children, path, sink=None):
        self.made = made
        super().__init__(words, parts, made if sink is None else sink, children, path)

    def stop(self):
        """Has the program end at once."""
        self.program.kill()
        self.is_ended_well()
        self.made.close()


class Progress:
    """How far all programs are: `running` ones, and those before, which read so many bytes."""

    def __init__(self, running, size):
        self.running, self.size, self.done = running, size, 0

    def total(self):
        return self.size

    def place(self, program):
        return self.done + sum(read_by(it.program) for it in list(self.running))


def at_once(names, setting):
    """How many programs may read these dumps at once."""
    return min(setting.threads, MOST_PIPES // max(1, len(names)))


def is_file(output):
    """Whether the output is a file of its own, which may be written at any place."""
    return output is not None and output.work is not None and not output.packer


def opened(names, files, children=None):
    """The dumps and databases of these names, open until `files` are closed. Of databases dumps are made by `children`, where there are any."""
    stems = [databases.stem_of(it) for it in names]
    return [RangedDump(name, files) if stem is None else RangedDatabase(stem, files, children) for name, stem in zip(names, stems)]


def merged(names, limits, children, setting, output):
    """Merges the dumps of slices into the output by as many programs as there are threads. Answers whether that was done: not for an
    answer that is no file of its own, nor for few bytes; and where a program did not do its work the answer is empty again."""
    many = at_once(names, setting)
    if many < 2 or not is_file(output):
        return False
    with contextlib.ExitStack() as files:
        dumps = [RangedDump(it, files) for it in names]
        size = size_of(dumps)
        if size < LEAST_BYTES:
            return False
        words, mergers = [places.find("kmc_merge"), *limits], []
        for parts in ranges_of(dumps, many):
            mergers.append(Merger(words, [it for it in parts if it.bytes], output.work, mergers[-1].end if mergers else 0, children))
        with Watch(Progress(mergers, size), mergers[0].program, not setting.quiet, step=merging):
            is_done = all([it.is_done() for it in mergers])
    if not is_done or mergers[-1].end != size:
        os.ftruncate(output.file, 0)
        return False
    setting.report.step("kmc_merge")
    setting.report.written = size
    return True


def ranges_fitting(operands, many):
    """The ranges of operands that are read by so many programs at once; none for few bytes, nor where the tables of databases would be too much."""
    size, tables = size_of(operands), sum(it.table for it in operands)
    wanted = min(max(many, size // RANGE_BYTES), MOST_TABLES * size // tables if tables else size)
    ranges = list(ranges_of(operands, wanted)) if size >= max(1, LEAST_BYTES) and wanted > 1 else []
    return ranges if len(lengths_of(ranges)) < 2 else []


def taken_in_order(joiners, many, size, setting, take):
    """Has so many joiners at once do their work, and `take` take the files that they wrote, in their order. Answers whether all was done."""
    running = collections.deque()
    try:
        running.extend(itertools.islice(joiners, many))
        progress = Progress(running, size)
        with Watch(progress, running[0].program, not setting.quiet, step=merging):
            while running:
                first = running.popleft()
                with first.made:
                    is_done = first.is_ended_well()
                    progress.done += first.bytes
                    running.extend(itertools.islice(joiners, 1 if is_done else 0))
                    if not (is_done and take(first.made)):
                        return False
        return True
    except Ended:
        running.clear()  # whoever catches it ends all children at once
        raise
    finally:
        for it in running:
            it.stop()


def made_in_order(names, program, folder, children, setting, begin, take):
    """Has `begin` begin a joiner by this program for each range of plain dumps and databases, and gives `take` what they made, in their order. What
    is made for them lies in this folder. Answers whether that was done: not for few bytes, nor where a program or `take` did not do its work."""
    many = at_once(names, setting)
    if many < 2:
        return False
    with contextlib.ExitStack() as files, contextlib.suppress(Fault, Unfit, OSError):
        operands = opened(names, files, None if program == "kmc_db" else children)
        ranges = ranges_fitting(operands, many)
        if not ranges:
            return False
        path = None
        if any(it.table for it in operands):
            path = folders.made(folder or tempfile.gettempdir())
            files.callback(folders.dropped, path)
        return taken_in_order(begin(ranges, path), many, sum(it.bytes for parts in ranges for it in parts), setting, take)
    return False


def texts(program, words, folder, children):
    """What begins, for each range, a joiner that writes lines to a file without a name in this folder."""
    def begin(ranges, path):
        command = [places.find(program), *words]
        for number, parts in enumerate(ranges):
            yield Joiner(command, parts, tempfile.TemporaryFile(dir=folder, buffering=0), children, "%s/%d" % (path, number))
    return begin


def is_copied(sink, file, start, end):
    """Has the system copy a part of a file behind what `sink` has. Answers whether all of it was."""
    with contextlib.suppress(OSError):  # who is asked to do it again has a fault that tells
        moved = None
        while start < end and moved != 0:
            moved = os.sendfile(sink, file, start, end - start)
            start += moved
    return start == end


def joined(names, program, words, children, setting, output):
    """Joins plain dumps and databases, or merges those that share k-mers, into the output by a program with these words for each range. Answers
    whether that was done, as `merged` does."""
    def take(made):
        return is_copied(sink, made.fileno(), 0, os.fstat(made.fileno()).st_size)

    if not is_file(output):
        return False
    folder = os.path.dirname(output.work)
    sink = os.open(output.work, os.O_WRONLY | os.O_CLOEXEC)
    try:
        if not made_in_order(names, program, folder, children, setting, texts(program, words, folder, children), take):
            os.ftruncate(sink, 0)
            return False
        setting.report.written = os.lseek(sink, 0, os.SEEK_CUR)
    finally:
        os.close(sink)
    setting.report.step(program)
    return True


def tallied(names, program, words, children, setting):
    """The table of plain dumps and databases by a program with these words for each range, as numbers of k-mers by their counts; none where that
    was not done. A k-mer is in one range, so its table is the sum of theirs."""
    found = collections.Counter()

    def take(made):
        made.seek(0)
        for line in made.read().splitlines():
            *counts, number = map(int, line.split())
            found[tuple(counts)] += number
        return True

    if not made_in_order(names, program, None, children, setting, texts(program, words, None, children), take):
        return None
    setting.report.step(program)
    return found
