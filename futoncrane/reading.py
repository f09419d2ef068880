"""The k-mers and counts of a dump or of a database, for Python: `futoncrane.counts`."""
import array
import itertools
import operator
import os
import sys

from futoncrane import databases, packing
from futoncrane.faults import Fault, reason, shown
from futoncrane.lines import Lines, blocks

MOST_COUNT = 2**64 - 1
# what is read at once: entries of a table, rows
ENTRIES = ROWS = 1 << 16
# what a byte of four letters has as its first, second, third and fourth
LETTERS = [bytes(b"ACGT"[it >> shift & 3] for it in range(256)) for shift in (6, 4, 2, 0)]


def pairs_in(path):
    """The pairs of a dump, or of a database where the path is a name of one, as `futoncrane.counts` gives them."""
    name = os.fsdecode(path)
    stem = databases.stem_of(name)
    return of_dump(name) if stem is None else of_database(stem)


def of_dump(name):
    """The pairs of a dump."""
    lines = Lines(shown(name))
    try:
        with open(name, "rb") as file:
            for block in blocks(text_of(file, lines.name)):
                words, counts = lines.take(block)
                counts = list(map(int, counts))
                if max(counts) > MOST_COUNT:
                    number = next(it for it, count in enumerate(counts, lines.number - len(counts) + 1) if count > MOST_COUNT)
                    raise Fault("%s: line %d is no line of a dump" % (lines.name, number))
                yield from zip(map(bytes.decode, words), counts)
    except OSError as fault:
        raise Fault("%s: %s" % (lines.name, reason(fault))) from None


def text_of(file, name):
    """A stream of the text of a dump, plain or packed by gzip."""
    kind = packing.kind_of(file.peek(packing.LONGEST_MAGIC))
    if kind is None:
        return file
    if kind != "gzip":
        raise Fault("%s: it is packed by %s: unpack it first" % (name, kind))
    return Unpacked(file, name)


class Unpacked:
    """The text of a file that is packed by gzip, of one member or of several."""

    def __init__(self, file, name):
        self.file, self.name = file, name
        self.make, self.damage = packing.maker("gzip")
        self.unpack, self.rest = self.make(), b""

    def read(self, size):
        """At most so many bytes; none at the end."""
        text = b""
        while not text:
            block = self.unpack.unconsumed_tail or self.unpack.unused_data or self.file.read(size)
            if not block:
                if not self.unpack.eof:
                    raise Fault("%s: the gzip data ends early" % self.name)
                return b""
            if self.unpack.eof:
                self.unpack = self.make()
            try:
                text = self.unpack.decompress(block, size)
            except self.damage as fault:
                raise Fault("%s: the gzip data is damaged (%s)" % (self.name, fault)) from None
        return text


def of_database(stem):
    """The pairs of a database, in the order of its rows."""
    header, _ = databases.checked(stem)
    path, suffix = databases.files_of(stem)
    last = ""
    try:
        with open(path, "rb") as table, open(suffix, "rb") as file:
            file.seek(len(databases.SUFFIX_MARKER))
            firsts = itertools.chain.from_iterable(first_parts(table, path, header))
            for start in range(0, header.rows, ROWS):
                many = min(ROWS, header.rows - start)
                rows = whole(file, suffix, many * databases.size_of_row(header))
                words, counts = list(words_of(rows, header, firsts)), counts_of(rows, header)
                if 0 in counts:
                    raise Fault("%s: row %d has a count of 0" % (shown(suffix), start + counts.index(0) + 1))
                are_rising = list(map(operator.lt, [last, *words], words))
                if not all(are_rising):
                    raise Fault("%s: row %d has a word that is not above the one before" % (shown(suffix), start + are_rising.index(False) + 1))
                last = words[-1]
                yield from zip(words, counts)
            next(firsts, None)  # looks at the rest of the table too
    except OSError as fault:
        raise Fault("%s: %s" % (shown(fault.filename or suffix), reason(fault))) from None


def first_parts(table, path, header):
    """For each first part its letters, as often as there are rows of it."""
    before, many = 0, 4**header.prefix
    if table.read(len(databases.PREFIX_MARKER)) != databases.PREFIX_MARKER:
        raise Fault("%s: it is no prefix file of a database" % shown(path))
    for start in range(0, many, ENTRIES):
        entries = array.array("Q", whole(table, path, 8 * min(ENTRIES, many - start)))
        if sys.byteorder == "big":
            entries.byteswap()
        for number, entry in enumerate(entries, start):
            if not before <= entry <= header.rows or number == 0 < entry:
                raise Fault("%s: entry %d of its table is %d, behind %d of %d rows" % (shown(path), number, entry, before, header.rows))
            if before < entry:
                yield itertools.repeat(letters_of(number - 1, header.prefix), entry - before)
            before = entry
    yield itertools.repeat(letters_of(many - 1, header.prefix), header.rows - before)


def letters_of(number, length):
    """The letters of a first part, of its number to base 4."""
    return "".join("ACGT"[number >> 2 * it & 3] for it in reversed(range(length)))


def words_of(rows, header, firsts):
    """The words of some rows: a first part, and the letters behind it, four a byte."""
    size, text = 4 * databases.size_of_row(header), bytearray(4 * len(rows))
    for place, letters in enumerate(LETTERS):
        text[place::4] = rows.translate(letters)
    text, behind = text.decode(), header.k - header.prefix
    for place, first in zip(range(0, len(text), size), firsts):
        yield first + text[place:place + behind]


def counts_of(rows, header):
    """The counts of some rows, which stand at their ends, the lowest byte first."""
    size = databases.size_of_row(header)
    found = [0] * (len(rows) // size)
    for place in range(header.counter):
        found = [number + (byte << 8 * place) for number, byte in zip(found, rows[size - header.counter + place::size])]
    return found


def whole(file, path, size):
    """So many bytes of a file."""
    found = file.read(size)
    if len(found) < size:
        raise Fault("%s: it was cut short while it was read" % shown(path))
    return found
