"""Databases of k-mers in KMC's sorted form. NAME.kmc, NAME.kmc_pre and NAME.kmc_suf all mean the two files of the database NAME."""
import collections
import contextlib
import os
import struct

from futoncrane.faults import Fault, reason, shown

NAME, PREFIX, SUFFIX = ".kmc", ".kmc_pre", ".kmc_suf"
# what stands at both ends of the two files
PREFIX_MARKER, SUFFIX_MARKER = b"KMCP", b"KMCS"
# the end of the prefix file, with its marker: docs/DEFINITIONS.md. The version of KMC 2 and 3 stands where the sorted form has 0
HEADER = struct.Struct("<IIIIIIQB3xI20xII4s")
LENGTH, SORTED, NEWER = 64, 0, 0x200
MOST_PREFIX, MOST_COUNTER, MOST_K = 15, 4, 64

Header = collections.namedtuple("Header", "k counter prefix least greatest is_forward rows")


def stem_of(name):
    """NAME, where a word means the database of this name; none where it means a file, as a file NAME.kmc that is there."""
    for end in (NAME, PREFIX, SUFFIX):
        stem = name[:-len(end)]
        if name.endswith(end) and os.path.basename(stem):
            is_file = end == NAME and os.path.exists(name) and not any(map(os.path.exists, files_of(stem)))
            return None if is_file else stem
    return None


def files_of(stem):
    """The prefix file, which makes it a database, and the suffix file, which has the rows."""
    return stem + PREFIX, stem + SUFFIX


def file_of(name):
    """The file that a word names: of a database the prefix file."""
    stem = stem_of(name)
    return name if stem is None else stem + PREFIX


def drop(stem):
    """Removes the files of a database, as far as they are there."""
    for it in files_of(stem):
        with contextlib.suppress(OSError):
            os.unlink(it)


def end_of(path):
    """The last bytes of a prefix file, as many as a header has, and how many bytes the file has."""
    try:
        with open(path, "rb") as file:
            size = file.seek(0, os.SEEK_END)
            file.seek(max(0, size - HEADER.size))
            return file.read(), size
    except OSError as fault:
        raise Fault("%s: %s" % (shown(path), reason(fault))) from None


def header_of(stem):
    """The header of a database. One of another form is refused, with what to do about it."""
    return header_in(*end_of(stem + PREFIX), stem + PREFIX)


def header_in(end, size, path):
    """The header in the last bytes of a prefix file, which has so many bytes."""
    if len(end) < HEADER.size or not end.endswith(PREFIX_MARKER):
        raise Fault("%s: it does not end as the file of a database does" % shown(path))
    k, mode, counter, prefix, least, low, rows, strands, high, version, length, _ = HEADER.unpack(end)
    if version == NEWER:
        raise Fault("%s: it is in the form of KMC 2 and 3, which is not sorted: 'kmc_tools transform %s sort OUT' makes a database that is read" % (
            shown(path), path[:-len(PREFIX)]))
    if version != SORTED or length != LENGTH or mode:
        raise Fault("%s: the database is of an unknown %s" % (shown(path), "version" if version else "mode" if mode else "header"))
    is_layout = 1 <= prefix <= min(k, MOST_PREFIX) and k <= MOST_K and (k - prefix) % 4 == 0 and 1 <= counter <= MOST_COUNTER
    if not is_layout:
        raise Fault("%s: the header has no lengths of k-mers, first parts and counts that fit" % shown(path))
    header = Header(k, counter, prefix, least, low + (high << 32), strands != 0, rows)
    if size != size_of_prefix_file(header):
        raise Fault("%s: it has %d bytes, and its header tells of another number" % (shown(path), size))
    return header


def size_of_prefix_file(header):
    """The bytes of the marker, of the table and of the header."""
    return len(PREFIX_MARKER) + 8 * 4**header.prefix + HEADER.size


def size_of_row(header):
    """The bytes of a row: the symbols behind the first part, four a byte, and the count."""
    return (header.k - header.prefix) // 4 + header.counter


def size_of_suffix_file(header):
    """The bytes of both markers and of the rows between them."""
    return 2 * len(SUFFIX_MARKER) + header.rows * size_of_row(header)


def checked(stem):
    """The header of a database whose files have their sizes and their markers, and the bytes of both files."""
    header = header_of(stem)
    path = stem + SUFFIX
    try:
        with open(path, "rb") as file:
            first = file.read(len(SUFFIX_MARKER))
            size = file.seek(0, os.SEEK_END)
            file.seek(max(0, size - len(SUFFIX_MARKER)))
            last = file.read()
    except OSError as fault:
        raise Fault("%s: %s" % (shown(path), reason(fault))) from None
    if size != len(first) + header.rows * size_of_row(header) + len(last):
        raise Fault("%s: it has %d bytes, and not %d rows as the header tells" % (shown(path), size, header.rows))
    if (first, last) != (SUFFIX_MARKER, SUFFIX_MARKER):
        raise Fault("%s: it is no suffix file of a database" % shown(path))
    return header, size + size_of_prefix_file(header)
