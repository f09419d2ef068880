"""Files of reads in parts, cut between records."""
import mmap
import os

from futoncrane import packing

LINES_LOOKED_AT = 16


def record_behind(file, place):
    """Where the first FASTQ record begins behind this place, if the lines there tell: a header, a line of '+' and a quality as long as the
    sequence, at one of four lines alone."""
    file.seek(place)
    file.readline()
    place, lines = file.tell(), [file.readline() for _ in range(LINES_LOOKED_AT)]
    lengths = [len(line.rstrip(b"\r\n")) for line in lines]

    def is_begin(first):
        return all(lines[it][:1] == b"@" and lines[it + 2][:1] == b"+" and lengths[it + 1] == lengths[it + 3]
                   for it in range(first, LINES_LOOKED_AT - 3, 4))
    found = [first for first in range(4) if is_begin(first)]
    return place + sum(map(len, lines[:found[0]])) if len(found) == 1 else None


def fastq_ends(file, size, length):
    """Places between FASTQ records, each the first that lies behind `size` bytes from the one before."""
    start = 0
    while start + size < length:
        end = record_behind(file, start + size)
        if end is None:
            yield from fastq_ends_by_lines(file, start, size)
            return
        yield end
        start = end


def fastq_ends_by_lines(file, start, size):
    """The same by counting lines, where the lines at a place do not tell. Blank lines between records are passed over, as kmc does."""
    file.seek(start)
    place = start
    for header in iter(file.readline, b""):
        place += len(header)
        if header.rstrip(b"\r\n"):
            place += sum(len(file.readline()) for _ in range(3))
        if place - start >= size:
            yield place
            start = place


def fasta_ends(file, size, length):
    """Places before FASTA headers, each the first that lies at least `size` bytes behind the one before."""
    with mmap.mmap(file.fileno(), 0, access=mmap.ACCESS_READ) as text:
        place = text.find(b"\n>", size)
        while place >= 0:
            yield place + 1
            place = text.find(b"\n>", place + 1 + size)


def of_files(found, is_fasta, size):
    """The parts of all inputs: (path, the command that unpacks it or none, first byte, byte behind the last)."""
    for it in found:
        path, start = os.path.abspath(it.name), 0
        command = packing.unpacker(it.packing, it.shown) if it.packing else None
        if command is None and it.bytes > size:
            with open(path, "rb") as file:
                for end in (fasta_ends if is_fasta else fastq_ends)(file, size, it.bytes):
                    if end < it.bytes:
                        yield path, None, start, end
                        start = end
        if start < it.bytes:
            yield path, command, start, it.bytes


def fasta_record_behind(file, place):
    """Where the first FASTA record begins behind this place, or the end of the file."""
    with mmap.mmap(file.fileno(), 0, access=mmap.ACCESS_READ) as text:
        found = text.find(b"\n>", place)
        return found + 1 if found >= 0 else len(text)


def place_between(files, sizes, is_fasta, place):
    """Which file has this place of all of them in a row, and where the first record begins behind it, or none where the lines do not tell. In
    the last lines of a file that is its end."""
    number = 0
    while place >= sizes[number]:
        place, number = place - sizes[number], number + 1
    with open(files[number], "rb", closefd=False) as file:
        found = (fasta_record_behind if is_fasta else record_behind)(file, place)
        return number, found if found is not None or file.read(1) else sizes[number]


def shares(files, sizes, is_fasta, many):
    """Plain files, which are open, in so many shares of about one size, each the pieces of its files: (file, first byte, byte behind the last).
    They are fewer where the lines do not tell between which records a share would end, or where records are too long."""
    ends = [place_between(files, sizes, is_fasta, sum(sizes) * number // many) for number in range(1, many)]
    if any(place is None for _, place in ends):
        return []
    made, begin = [], (0, 0)
    for end in [*ends, (len(files), 0)]:
        pieces = [(file, begin[1] if number == begin[0] else 0, end[1] if number == end[0] else sizes[number])
                  for number, file in enumerate(files) if begin[0] <= number <= end[0]]
        made.append([it for it in pieces if it[1] < it[2]])
        begin = end
    return [it for it in made if it]
