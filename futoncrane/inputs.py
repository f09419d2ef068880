"""The files of reads: how each is compressed, whether it is FASTQ or FASTA, and about how many symbols it has."""
import contextlib
import errno
import os
import re
import stat
import subprocess

from futoncrane import databases, packing
from futoncrane.faults import Fault, reason, shown
from futoncrane.options import MOST

BLOCK = 1 << 16
SAMPLE = 1 << 18
# of a compressed file that cannot be sampled: bytes of text for each of its bytes
USUAL_RATIO = 4.0
FORMATS = {b">": "FASTA", b"@": "FASTQ"}
MOST_OF_32_BITS = 2**32 - 1
# a file that is none of reads, by its first bytes or those behind so many, and what it is
FOREIGN = (
    (0, b"PK\x03\x04", "a zip archive: unpack it first"), (0, b"7z\xbc\xaf", "a 7z archive: unpack it first"), (257, b"ustar", "a tar archive: unpack it first"),
    (0, b"\x89HDF", "an HDF5 file, as FAST5 is: make FASTQ of it first"), (0, b"NCBI.sra", "an SRA archive: make FASTQ of it by fasterq-dump first"),
    (0, b"KMCSLICE", "a file of slices, which 'futoncrane list' takes"), (0, b"KMCP", "a file of a database, which is named NAME.kmc_pre"),
    (0, b"KMCS", "a file of a database, which is named NAME.kmc_suf"), (0, b"<", "a page of a web site or XML, and no reads"),
    (0, b"##fileformat=VCF", "a VCF file, and no reads"), (0, b"LOCUS ", "a GenBank file: make FASTA of it first"))
DUMP_LINE, SAM_HEADER = rb"[ACGT]{1,64}\t[0-9]+(?:\n|$)", rb"@(?:HD|SQ|RG|PG|CO)\t"
SAM_LINE = rb"[^\t\n]+\t[0-9]+\t[^\t\n]+\t[0-9]+\t(?:[^\t\n]*\t){6}[^\t\n]+"


class Input:
    """One input. A regular file is opened when it is read; anything else, as a pipe, is opened once, and what was read of it to see
    what it is stands in `head`."""

    def __init__(self, name):
        self.name, self.shown = name, shown(name)
        self.is_stream, self.head, self.descriptor = False, b"", None
        self.packing = self.format = self.k = None
        self.start = self.bytes = 0
        self.ratio, self.share = 1.0, 0.5
        self.sample = Sample()
        stem = databases.stem_of(name)
        if stem is not None:
            header, self.bytes = databases.checked(stem)
            self.format, self.k = "DUMP", header.k
            return
        try:
            self._look()
        except OSError as fault:
            raise Fault("%s: %s" % (self.shown, reason(fault))) from None

    def _look(self):
        descriptor = self.open()
        kind = os.fstat(descriptor)
        if stat.S_ISDIR(kind.st_mode):
            raise Fault("%s: it is a folder; name its files" % self.shown)
        self.is_stream = not stat.S_ISREG(kind.st_mode)
        if self.is_stream or self.name == "-":
            self.descriptor = descriptor
        if not self.is_stream:
            self.start = os.lseek(descriptor, 0, os.SEEK_CUR)
            self.bytes = kind.st_size - self.start
        try:
            self._see(descriptor)
        finally:
            if self.descriptor is None:
                os.close(descriptor)

    def open(self):
        """A descriptor at the input's beginning, or behind its head. A regular file's is the caller's to close."""
        if self.descriptor is not None:
            return self.descriptor
        return 0 if self.name == "-" else os.open(self.name, os.O_RDONLY | os.O_CLOEXEC)

    def close(self, descriptor):
        """Closes what `open` gave, unless it is kept."""
        if descriptor != self.descriptor:
            os.close(descriptor)

    def _blocks(self, descriptor):
        """The first blocks of the file; of a stream they are kept in its head."""
        place = self.start
        while True:
            block = os.read(descriptor, BLOCK) if self.is_stream else os.pread(descriptor, BLOCK, place)
            place += len(block)
            if self.is_stream:
                self.head += block
            if not block:
                return
            yield block

    def _see(self, descriptor):
        """Sees the compression and the format."""
        blocks = self._blocks(descriptor)
        first = b""
        for block in blocks:
            first += block
            if len(first) >= packing.LONGEST_MAGIC:
                break
        self.packing = "CRAM" if first.startswith(b"CRAM") else packing.kind_of(first)
        if self.packing == "CRAM":
            self.format = "FASTQ"
            return
        if self.packing is None:
            if packing.is_cut_before_text(self.name, first):
                raise Fault("%s: the compressed file ends early" % self.shown)
            text = first
            while not text.strip(b"\r\n"):
                block = next(blocks, b"")
                if not block:
                    break
                text = block
        else:
            text = self._unpacked(first, blocks)
        if is_aligned(text):
            if self.packing not in (None, "gzip"):
                raise Fault("%s: it is an alignment packed by %s, which samtools does not read: unpack it first" % (self.shown, self.packing))
            self.packing = "BAM" if text.startswith(b"BAM\x01") else "SAM"
            text = self._by_child(first)
            self.format = "FASTQ"
        self._judge(text.lstrip(b"\r\n"))

    def _unpacked(self, first, blocks):
        """Some text of a compressed file."""
        if self.packing == "zstd":
            return self._by_child(first)
        make, damage = packing.maker(self.packing)
        unpack, text, read, block = make(), b"", 0, first
        try:
            while block:
                read += len(block)
                text += unpack.decompress(block, SAMPLE)
                if len(text.lstrip(b"\r\n")) > 0:
                    break
                rest = getattr(unpack, "unused_data", b"") if unpack.eof else getattr(unpack, "unconsumed_tail", b"")
                if unpack.eof:
                    unpack = make()
                read -= len(rest)
                block = rest or next(blocks, b"")
        except (damage, OSError, ValueError, EOFError):
            raise Fault("%s: the %s data is damaged" % (self.shown, self.packing)) from None
        self.ratio = len(text) / max(1, read - len(getattr(unpack, "unconsumed_tail", b""))) if text else 1.0
        return text

    def _by_child(self, first):
        """Some text of a compressed file that Python cannot unpack: its first block, as far as a program unpacks it."""
        self.ratio = USUAL_RATIO
        with subprocess.Popen(packing.unpacker(self.packing, self.shown), stdin=subprocess.PIPE, stdout=subprocess.PIPE,
                              stderr=subprocess.DEVNULL) as child:
            with contextlib.suppress(BrokenPipeError):
                child.stdin.write(first)
                child.stdin.flush()
            with contextlib.suppress(BrokenPipeError):
                child.stdin.close()
            text = child.stdout.read(BLOCK)
            child.kill()
        return text

    def _judge(self, text):
        """Takes the format from the first byte of the text, and the share of symbols from its lines."""
        if not text:
            return
        if re.match(DUMP_LINE, text):
            self.format, self.k = "DUMP", text.index(b"\t")
            return
        told = next((told for place, magic, told in FOREIGN if text[place:].startswith(magic)), None)
        if told:
            raise Fault("%s: it is %s" % (self.shown, told))
        self.format = FORMATS.get(text[:1])
        if self.format is None:
            raise Fault("%s: it is neither FASTA nor FASTQ: its text begins with %r" % (self.shown, chr(text[0])))
        self.sample = Sample(text, self.format)
        self.share = self.sample.symbols / len(text)

    def identity(self):
        """What tells a regular file from another one, and from itself once it was written to."""
        descriptor = self.open()
        try:
            kind = os.fstat(descriptor)
        finally:
            self.close(descriptor)
        return os.path.realpath(self.name), kind.st_dev, kind.st_ino, kind.st_size, kind.st_mtime_ns, self.start

    def symbols(self):
        """About how many symbols the input has; of a stream nothing is known."""
        return int(self.bytes * self.ratio * self.share)


class Sample:
    """What the first lines of an input show: how many symbols there are, the longest read, and the letters that stand for no base."""

    def __init__(self, text=b"", format_name=None):
        lines = text.split(b"\n")
        reads = lines[1::4] if format_name == "FASTQ" else [line for line in lines if not line.startswith(b">")]
        reads = [it.rstrip(b"\r") for it in reads]
        letters = b"".join(reads)
        self.symbols = len(letters)
        self.longest = max(map(len, reads), default=0) if format_name == "FASTQ" else max(map(len, b"".join(
            b">" if it.startswith(b">") else it.rstrip(b"\r") for it in lines).split(b">")), default=0)
        foreign = letters.translate(None, b"ACGTNacgtn").upper()
        self.foreign, self.kinds = len(foreign), {chr(it) for it in foreign}


def is_aligned(text):
    """Whether a text is BAM or SAM. A FASTQ header that begins as SAM does has a line of '+' two lines below."""
    if text.startswith(b"BAM\x01"):
        return True
    text = text.lstrip(b"\r\n")
    lines = text.split(b"\n", 3)
    return bool(re.match(SAM_LINE, text) or re.match(SAM_HEADER, text) and not (len(lines) > 2 and lines[2].startswith(b"+")))


def format_of_all(inputs, wanted=None):
    """The one format of all inputs, FASTQ where none has any text. A mixture is a fault that names both files."""
    first = None
    for it in inputs:
        if it.format is None:
            continue
        first = first or it
        if it.format != first.format:
            raise Fault("%s is %s, and %s is %s: count them apart" % (first.shown, first.format, it.shown, it.format))
    if first and first.format == "DUMP":
        raise Fault("%s is a dump of k-mers and has no reads: histogram, size, genomescope, solid, compare, merge and query take it" % first.shown)
    if first and wanted and first.format != wanted:
        raise Fault("%s is %s, and the option says %s" % (first.shown, first.format, wanted))
    return first.format if first else wanted or "FASTQ"


def most_count(inputs, format_name):
    """A bound of the counts of k-mers, as far as the sizes of plain files tell: a k-mer has no more places than there are symbols, and in FASTQ
    a symbol has a quality beside it. Below 2^32 it is taken as the most that 32 bits hold."""
    is_known = not any(it.is_stream or it.packing for it in inputs)
    symbols = sum(it.bytes for it in inputs) // (1 if format_name == "FASTA" else 2)
    return MOST_OF_32_BITS if is_known and symbols <= MOST_OF_32_BITS else MOST


def is_same_file(name, other):
    """Whether two names are of one file, or of one database, that is there."""
    try:
        return os.path.samefile(*map(databases.file_of, (name, other)))
    except OSError as fault:
        if fault.errno in (errno.ENOENT, errno.ENOTDIR, errno.EACCES):
            return False
        raise
