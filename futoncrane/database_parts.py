"""What a program is given of a database that is cut into ranges: a part of it as a database of its own, or the dump of that."""
import os
import subprocess

from futoncrane import databases, places
from futoncrane.children import ended
from futoncrane.feeding import widened
from futoncrane.ranged_dumps import Part
from futoncrane.sending import Sender


class DatabasePart(Part):
    """The rows of some entries of a table, so many behind so many, as a database: a prefix file, which is read twice, and a suffix file."""

    def __init__(self, database, entries, rows):
        super().__init__(2 * database.table + database.row * rows[1])
        self.database, self.entries, self.rows, self.path = database, entries, rows, None

    def length(self):
        """How many letters its k-mers have; none where it has no row."""
        return self.database.header.k if self.rows[1] else None

    def given(self, path):
        """Has it ready for a program, as the database of this name, and answers that. The suffix file is the name of a pipe."""
        self.path = path
        prefix, suffix = databases.files_of(path)
        self.database.write_prefix_file(prefix, *self.entries, *self.rows)
        self.sender = Sender(self.database.suffix_file(*self.rows))
        os.symlink("/dev/fd/%d" % self.sender.source, suffix)
        return path

    def drop(self):
        super().drop()
        if self.path:
            databases.drop(self.path)


class DumpedPart(DatabasePart):
    """The same for a program that takes no database: it reads the dump, which a kmc_db of these children writes into a pipe."""

    def __init__(self, database, entries, rows, children):
        super().__init__(database, entries, rows)
        self.children, self.dumper, self.dump = children, None, None

    @property
    def source(self):
        return self.dump

    def given(self, path):
        command = [places.find("kmc_db"), "dump", super().given(path)]
        self.dump, sink = os.pipe()
        widened(sink)
        try:
            self.dumper = self.children.start(command, pass_fds=[self.sender.source], stdin=subprocess.DEVNULL, stdout=sink)
        finally:
            os.close(sink)
        self.sender.begin()
        return "/dev/fd/%d" % self.dump

    def begin(self):
        os.close(self.dump)
        self.dump = None

    def is_taken(self):
        status, _ = ended(self.dumper)
        self.children.forget(self.dumper)
        return super().is_taken() and status == 0

    def drop(self):
        super().drop()
        if self.dump is not None:
            os.close(self.dump)
            self.dump = None
