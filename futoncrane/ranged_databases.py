"""A database by ranges of k-mers: a range begins and ends at an entry of its table. It is handed to a program as a database with fewer rows, whose
prefix file is made anew and whose suffix file is a pipe, so that the program judges each entry and each row as it does those of the whole."""
import bisect
import os
import struct

from futoncrane import databases
from futoncrane.database_parts import DatabasePart, DumpedPart
from futoncrane.reading import letters_of

# the first parts of a table that is cut have no more letters: its ranges have prefix files of 32 MiB at most
MOST_PREFIX = 11
# a line of a dump has a tab, a line feed and mostly one digit behind its k-mer
BESIDE = 3
ENTRY, DIGITS = struct.Struct("<Q"), bytes.maketrans(b"ACGT", b"0123")
# where the number of rows stands in a header
ROWS = slice(24, 32)


class Unfit(Exception):
    """A database, or another operand of it, that no ranges are made of. Whoever reads it as a whole tells what is wrong, if something is."""


def bytes_at(file, place, size):
    """So many bytes of a file from a place on."""
    found = os.pread(file, size, place)
    if len(found) != size:
        raise Unfit
    return found


def with_rows(end, rows):
    """The end of a prefix file, its header and its marker, with so many rows in place of those that it tells."""
    return end[:ROWS.start] + ENTRY.pack(rows) + end[ROWS.stop:]


class Table:
    """The table in a prefix file, as a sequence: for each first part the number of rows that are before it."""

    def __init__(self, file, prefix):
        self.file, self.entries = file, 4**prefix

    def __len__(self):
        return self.entries

    def __getitem__(self, number):
        return ENTRY.unpack(self.bytes_of(number, number + 1))[0]

    def bytes_of(self, first, last):
        return bytes_at(self.file, len(databases.PREFIX_MARKER) + ENTRY.size * first, ENTRY.size * (last - first))

    def less(self, first, last, rows):
        """The bytes of some entries, each less so many rows: one number less another one. An entry that is less than these leaves one that no
        number of rows reaches."""
        size, many = ENTRY.size * (last - first), int.from_bytes(ENTRY.pack(rows) * (last - first), "little")
        left = int.from_bytes(self.bytes_of(first, last), "little") - many
        if left < 0:
            raise Unfit
        return left.to_bytes(size, "little")


class RangedDatabase:
    """A database, open as long as `files` are. It counts as the `size` bytes of its dump, and its places are entries of its table, up to `end`. It
    can be cut at words of at most as many `letters` as its first parts have, and for a range a `table` of so many bytes is written. A program that
    takes no database is given dumps, which `children` of ours write."""

    def __init__(self, stem, files, children=None):
        path, suffix = databases.files_of(stem)
        if not os.path.isfile(path) or not os.path.isfile(suffix):
            raise Unfit
        self.children = children
        self.file, self.suffix = (files.enter_context(open(it, "rb", buffering=0)).fileno() for it in (path, suffix))
        self.table, self.suffix_size = (os.fstat(it).st_size for it in (self.file, self.suffix))
        self.last = bytes_at(self.file, max(0, self.table - databases.HEADER.size), databases.HEADER.size)
        self.header = databases.header_in(self.last, self.table, path)
        self.row, self.letters = databases.size_of_row(self.header), self.header.prefix
        if self.letters > MOST_PREFIX or self.suffix_size != databases.size_of_suffix_file(self.header):
            raise Unfit
        self.entries = Table(self.file, self.letters)
        self.end, self.size = len(self.entries), self.header.rows * (self.header.k + BESIDE)

    def bounds(self, many):
        """The first parts that part it into so many ranges of about one size."""
        found = {bisect.bisect_left(self.entries, self.header.rows * number // many) for number in range(1, many)}
        return {letters_of(it, self.letters).encode() for it in found if it < self.end}

    def place_of(self, word):
        """The number of the first entry whose k-mers are not below this word."""
        if word.strip(b"ACGT"):
            raise Unfit
        return int(word.translate(DIGITS), 4) * 4**(self.letters - len(word))

    def rows_before(self, place):
        """How many rows are before an entry, as the table tells; none before the first one, which is judged as it stands."""
        return self.header.rows if place == self.end else self.entries[place] if place else 0

    def part(self, start, end):
        """What lies between two places. The table must not fall from one to the other, nor go beyond the rows."""
        before, behind = self.rows_before(start), self.rows_before(end)
        if not before <= behind <= self.header.rows:
            raise Unfit
        entries, rows = (start, end), (before, behind - before)
        return DumpedPart(self, entries, rows, self.children) if self.children else DatabasePart(self, entries, rows)

    def write_prefix_file(self, path, first, last, before, many):
        """Makes the prefix file of some entries that have so many rows, behind so many: no row is before the first of them, and all are before the
        entries behind them. All else of it is of this one."""
        with open(path, "xb") as file:
            file.write(bytes_at(self.file, 0, len(databases.PREFIX_MARKER)))
            file.seek(ENTRY.size * first, os.SEEK_CUR)
            file.write(self.entries.less(first, last, before))
            file.write(ENTRY.pack(many) * (self.end - last))
            file.write(with_rows(self.last, many))

    def suffix_file(self, before, many):
        """The suffix file of so many rows behind others, in pieces of this one: both of its markers, and the rows between them."""
        marker = len(databases.SUFFIX_MARKER)
        start = marker + self.row * before
        pieces = [(0, marker), (start, start + self.row * many), (self.suffix_size - marker, self.suffix_size)]
        return [(self.suffix, *it) for it in pieces]
