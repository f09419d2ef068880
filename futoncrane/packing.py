"""How files are compressed, and the programs that unpack them and pack the dump."""
import os
import sys
import zlib

from futoncrane.faults import Fault
from futoncrane.places import in_path

# its first bytes, the ends of names, the programs that unpack it, the best first, and the Debian package of the last
KINDS = {
    "gzip": (b"\x1f\x8b", (".gz", ".bgz"), ("pigz", "gzip"), "gzip"),
    "bzip2": (b"BZh", (".bz2",), ("lbzip2", "bzip2"), "bzip2"),
    "xz": (b"\xfd7zXZ\x00", (".xz",), ("xz",), "xz-utils"),
    "zstd": (b"\x28\xb5\x2f\xfd", (".zst",), ("zstd",), "zstd"),
}
# alignments, which samtools makes FASTQ of
ALIGNED = ("BAM", "CRAM", "SAM")
# what of samtools' lines tells of no fault
OF_SAMTOOLS = "[M::"
# a file is told to end early by these words of programs, also where their status is 0
SUSPECT = ("trailing", "EOF marker is absent", "truncated")
# how an answer is packed: by the end of its name
PACKED = {".gz": "gzip", ".zst": "zstd"}
LONGEST_MAGIC = max(len(magic) for magic, _, _, _ in KINDS.values())
# what Python unpacks where no program is installed
BY_PYTHON = ("gzip", "bzip2", "xz")
HERE = os.path.dirname(os.path.abspath(__file__))


def kind_of(first):
    """How a file that begins with these bytes is compressed, or none."""
    for kind, (magic, _, _, _) in KINDS.items():
        if first.startswith(magic):
            return kind
    return None


def kind_of_file(descriptor):
    """How a file is compressed, by its bytes at its place, which stays; of a pipe nothing is seen."""
    try:
        return kind_of(os.pread(descriptor, LONGEST_MAGIC, os.lseek(descriptor, 0, os.SEEK_CUR)))
    except OSError:
        return None


def is_cut_before_text(name, first):
    """Whether a file is named as a compressed one and is so short that its first bytes are not all there."""
    return any(name.endswith(ends) and len(first) < len(magic) and magic.startswith(first) for magic, ends, _, _ in KINDS.values())


def unpacker(kind, name):
    """The command that unpacks standard input to standard output."""
    if kind in ALIGNED:
        found = in_path("samtools")
        if found is None:
            raise Fault("%s: it is a %s file, and samtools, which reads it, is not installed (Debian's package samtools)" % (name, kind))
        return [found, "fastq", "-F", "0x900", "-"]  # without what is aligned a second time
    for program in KINDS[kind][2]:
        found = in_path(program)
        if found:
            # pigz passes over what stands behind the data, and tells of it only by -v
            return [found, "-dcv" if program == "pigz" else "-dc"]
    if kind in BY_PYTHON:
        return [sys.executable, os.path.join(HERE, "unpack.py"), kind]
    raise Fault("%s: %s is not installed (Debian's package %s)" % (name, kind, KINDS[kind][3]))


def cleaned(said):
    """What an unpacker said, in short: without what pigz and samtools say in any case, and up to its first fault."""
    lines = [line.strip().rstrip(";:") for line in said.replace("<stdin> to <stdout>", "").splitlines()]
    return next((line for line in lines if line and not line.startswith(OF_SAMTOOLS)), "")


def is_suspect(said):
    """Whether an unpacker told that the file is not whole, be its status 0."""
    return any(it in said for it in SUSPECT)


def packer(kind, name, threads):
    """The command that packs standard input, at the level that takes the least time."""
    if kind == "zstd":
        found = in_path("zstd")
        if found is None:
            raise Fault("%s: zstd is not installed (Debian's package zstd)" % name)
        return [found, "-q", "-1", "-c", "-T%d" % threads]
    found = in_path("pigz")
    if found:
        return [found, "-1", "-c", "-p", "%d" % threads]
    found = in_path("gzip")
    return [found, "-1", "-c"] if found else [sys.executable, os.path.join(HERE, "unpack.py"), "pack"]


def maker(kind):
    """What makes an object that unpacks one stream of this kind, and what such an object raises over damaged data."""
    if kind == "gzip":
        return lambda: zlib.decompressobj(31), zlib.error
    if kind == "bzip2":
        import bz2  # a Python may have been built without it, and without lzma
        return bz2.BZ2Decompressor, OSError
    import lzma
    return lzma.LZMADecompressor, lzma.LZMAError
