"""Dumps as they are read: lines of a k-mer, a tab and its count, in the order of the k-mers."""
import collections
import os
import subprocess

from futoncrane import databases, dealing, dumping, packing, places
from futoncrane.children import ended, signal_of, told
from futoncrane.faults import Fault, reason, shown
from futoncrane.feeding import judge_unpacker
from futoncrane.lines import Lines, blocks


# so many programs read a dump side by side
MOST_READERS = 3


class Histogram:
    """How many k-mers have each count, by kmc_db, whose answer is proved. Of reads that are counted in one run it tells that itself, and `take` reads
    it. A call has it read a dump while a program writes that. `numbers` gives the answer once these programs have ended well. The dumps of slices
    share no k-mer, so their histograms add up, and so do those of the lines that are dealt to several kmc_db where there are as many `threads`."""
    takes_parts = True

    def __init__(self, children, threads=1):
        self.children, self.rows, self.lines, self.fault = children, collections.Counter(), [], None
        self.readers = min(MOST_READERS, threads) if dealing.can_splice() else 1

    def __call__(self, stream):
        sources, sinks = dealing.pipes(self.readers) if self.readers > 1 else ([stream], [])
        programs = [self.children.start([places.find("kmc_db"), "histogram", "/dev/stdin"], stdin=it, stdout=subprocess.PIPE) for it in sources]
        if sinks:
            for it in sources:
                os.close(it)
            dealing.deal(stream.fileno(), sinks)
        stream.close()
        for it in programs:
            self._judge(it)

    def take(self, stream):
        """Reads a histogram: lines of a count and a number. They are looked at once it is known how their program ended."""
        self.lines += stream.readlines()

    def _judge(self, program):
        """Reads the histogram that a program tells, and judges how it ended."""
        self.take(program.stdout)
        status, _ = ended(program)
        if status:
            self.fault = "kmc_db %s" % signal_of(status) if status < 0 else told(program)
            if ": line " not in self.fault:  # a line that is none may be the end of a dump whose program failed, which tells its own fault
                raise Fault(self.fault)
        self.children.forget(program)

    def add(self, numbers):
        """Adds a histogram of k-mers that were in none before."""
        self.rows.update(numbers)

    def numbers(self):
        if self.fault:
            raise Fault(self.fault)
        for line in self.lines:
            count, number = map(int, line.split())
            self.add({count: number})
        self.lines = []
        return dict(sorted(self.rows.items()))


class Dump:
    """A dump in a file, plain or packed, or that of a database. `more` gives its next k-mers and counts; a line that is none of a dump is a
    fault. `k` is how many letters its k-mers have, once one was read."""

    def __init__(self, name, children):
        self.name, self.child, self.kind = shown(name), None, None
        self.lines = Lines(self.name)
        stem = databases.stem_of(name)
        if stem is not None:
            self.child = dumping.dumped(stem, children, subprocess.PIPE)
            self.blocks = blocks(self.child.stdout)
            return
        try:
            file = open(0 if name == "-" else name, "rb", closefd=name != "-")
            self.kind = packing.kind_of_file(file.fileno())
            if self.kind:
                self.child = children.start(packing.unpacker(self.kind, self.name), stdin=file, stdout=subprocess.PIPE)
                file.close()
        except OSError as fault:
            raise Fault("%s: %s" % (self.name, reason(fault))) from None
        self.blocks = blocks(self.child.stdout if self.child else file)

    @property
    def k(self):
        return self.lines.k

    def more(self):
        """The next k-mers and their counts, as lists; empty at the end."""
        try:
            block = next(self.blocks, b"")
        except OSError as fault:
            raise Fault("%s: %s" % (self.name, reason(fault))) from None
        if not block:
            if self.child:
                self._judge()
            return [], []
        try:
            return self.lines.take(block)
        except Fault:
            if self.child and not next(self.blocks, b""):
                self._judge()  # the last line may be none since its program failed
            raise

    def _judge(self):
        """The fault of the program that writes the dump, if it has one."""
        if self.kind is None:
            dumping.judge(self.name, self.child)
        else:
            judge_unpacker(self.name, self.kind, self.child)
