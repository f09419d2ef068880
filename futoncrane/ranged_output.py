"""An answer that is a database, by ranges of k-mers. The lines that a program makes of a range go straight to a kmc_db, which packs them into a
database of this range alone. These are put together, in their order, into the one that a single kmc_db makes of all lines: its rows are theirs,
and its table is the sum of theirs, since each tells how many of its own rows are before an entry. So a range may begin within an entry.

There are as many pairs of programs at once as threads, and not half as many: a kmc_db that packs often waits for lines, and a pair whose range is
made waits for its turn."""
import contextlib
import os

from futoncrane import databases, places
from futoncrane.children import ended
from futoncrane.feeding import write_all
from futoncrane.ranged_databases import ENTRY, RangedDatabase, with_rows
from futoncrane.ranges import Joiner, is_copied, lengths_of, made_in_order


class Made:
    """The database of a range, whose files are gone once it was taken."""

    def __init__(self, stem):
        self.stem = stem

    def __enter__(self):
        return self

    def __exit__(self, *fault):
        self.close()

    def close(self):
        databases.drop(self.stem)


class PackedJoiner(Joiner):
    """A program that joins a range, and a kmc_db that packs what it writes into the database `made`."""

    def __init__(self, words, parts, output, made, path, k):
        self.packer, sink = output.packer_into(made.stem, k)
        with contextlib.ExitStack() as begun:
            begun.callback(made.close)
            begun.callback(output.children.forget, self.packer)
            begun.callback(self.packer.wait)
            begun.callback(self.packer.kill)
            try:
                super().__init__(words, parts, made, output.children, path, sink)
            finally:
                os.close(sink)
            begun.pop_all()

    def is_ended_well(self):
        """The same of both programs."""
        is_joined = super().is_ended_well()
        status, _ = ended(self.packer)
        self.children.forget(self.packer)
        return is_joined and status == 0

    def stop(self):
        self.packer.kill()
        super().stop()


class Whole:
    """The database that those of ranges make together. Its suffix file is open as `sink`, and has the rows that were taken. Meanwhile its table is
    one number, and `end` its header without rows. A table has at most as many entries as one that is cut, and 4^8 where no other is asked for."""

    def __init__(self, sink):
        self.sink, self.table, self.entries, self.rows, self.end = sink, 0, 0, 0, None

    def begin(self):
        """Begins the suffix file."""
        write_all(self.sink, databases.SUFFIX_MARKER)

    def take(self, made):
        """Takes the database of the next range. Answers whether it was taken whole, and is like those before."""
        with contextlib.ExitStack() as files:
            part = RangedDatabase(made.stem, files)
            end = with_rows(part.last, 0)
            if self.end not in (None, end):
                return False
            self.end, self.entries = end, part.end
            self.table += int.from_bytes(part.entries.bytes_of(0, part.end), "little")
            self.rows += part.header.rows
            _, rows, _ = part.suffix_file(0, part.header.rows)
            return is_copied(self.sink, *rows)

    def finish(self, path):
        """Ends the suffix file, and makes the prefix file."""
        write_all(self.sink, databases.SUFFIX_MARKER)
        with open(path, "xb") as file:
            file.write(databases.PREFIX_MARKER + self.table.to_bytes(ENTRY.size * self.entries, "little") + with_rows(self.end, self.rows))


def packed(program, words, output):
    """What begins, for each range, a joiner whose answer is a database."""
    def begin(ranges, path):
        command, k = [places.find(program), *words], max(lengths_of(ranges), default=None)
        for number, parts in enumerate(ranges):
            yield PackedJoiner(command, parts, output, Made(os.path.join(output.folder, "range.%d" % number)), "%s/%d" % (path, number), k)
    return begin


def is_whole(names, program, words, children, setting, output, whole):
    """Has the whole be made range by range, and answers whether that was done. Of no rows at all one kmc_db tells what k is wanted for."""
    whole.begin()
    if not made_in_order(names, program, output.folder, children, setting, packed(program, words, output), whole.take):
        return False
    if whole.rows == 0 and not output.tells_k():
        return False
    whole.finish(output.made[0])
    return True


def joined(names, program, words, children, setting, output):
    """As `ranges.joined` does, into an output that is a database: where it is not done, no file is there, and one kmc_db is to pack all."""
    try:
        with open(output.made[1], "xb", buffering=0) as sink:
            whole = Whole(sink.fileno())
            is_done = is_whole(names, program, words, children, setting, output, whole)
    except OSError:  # who is asked to do it again has a fault that tells
        is_done = False
    if not is_done:
        databases.drop(output.stem)
        return False
    output.is_direct, setting.report.written = True, whole.rows
    setting.report.step(program)
    return True
