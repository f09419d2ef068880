"""Where the answer goes: standard output, or a file that has its name only once it is whole."""
import contextlib
import fcntl
import os
import select
import stat
import subprocess
import sys
import threading

from futoncrane import leftovers, packing
from futoncrane.children import TEMPORARY, held_signals, signal_of, told, too_late
from futoncrane.faults import Fault, Misuse, Quiet, reason, shown
from futoncrane.feeding import widened, write_all
from futoncrane.memory import of_machine

# ends of names that promise another form than the one that is written; those of FASTA are for `solid`
OTHERS = {".bz2": "bzip2", ".xz": "xz", ".bgz": "bgzip", ".zip": "zip", ".kff": "KFF", ".jf": "Jellyfish's database", ".kmc": "a database",
          ".kmc_pre": "a database", ".kmc_suf": "a database", ".bam": "BAM", ".sam": "SAM", ".cram": "CRAM", ".fastq": "FASTQ", ".fq": "FASTQ", ".h5": "HDF5",
          ".json": "JSON", ".png": "a picture", ".pdf": "a picture", ".svg": "a picture", ".xlsx": "a table of Excel"}
FASTA = (".fa", ".fasta", ".fna")
BLOCK = 1 << 20


def packed_by(name):
    """What packs an answer of this name, or none."""
    return next((kind for end, kind in packing.PACKED.items() if name.lower().endswith(end)), None)


def check_end(name, form="text"):
    """Refuses a name whose end promises another form than `form`: 'text', 'FASTA' or 'PNG'."""
    plain = name.lower()
    for end in packing.PACKED:
        plain = plain[:-len(end)] if plain.endswith(end) else plain
    end = os.path.splitext(plain)[1]
    if form == "PNG":
        if end != ".png":
            raise Misuse("%s: the picture is a PNG: name a file .png" % shown(name))
        return
    other = OTHERS.get(end) or ("FASTA" if end in FASTA and form != "FASTA" else None)
    if other:
        raise Misuse("%s: %s is not written here, but %s, packed where the name ends in .gz or .zst: name it otherwise" % (
            shown(name), other, "FASTA" if form == "FASTA" else "lines of text"))


def is_replaced(name):
    """Whether a file of this name is made anew: not so for a device, a pipe and the like, which are written to."""
    try:
        kind = os.stat(name).st_mode
    except FileNotFoundError:
        return True
    except OSError as fault:
        raise Fault("%s: %s" % (shown(name), reason(fault))) from None
    if stat.S_ISDIR(kind):
        raise Fault("%s: it is a folder" % shown(name))
    return stat.S_ISREG(kind)


def mode_of(path):
    """The mode that a file of this name gets: that of the one that is there, or of a new one."""
    mask = os.umask(0)
    os.umask(mask)
    return stat.S_IMODE(os.stat(path).st_mode) if os.path.exists(path) else 0o666 & ~mask


class Counter(threading.Thread):
    """Passes the answer on to its packer, and counts the lines."""

    def __init__(self, source, sink):
        super().__init__(daemon=True)
        self.source, self.sink, self.lines = source, sink, 0

    def run(self):
        with contextlib.suppress(OSError):  # a packer that reads no more: its status tells
            for block in iter(lambda: os.read(self.source, BLOCK), b""):
                self.lines += block.count(b"\n")
                write_all(self.sink, block)
        os.close(self.sink)
        os.close(self.source)


class Flush(threading.Thread):
    """Has what is written to a file go to the disk while more is written, so that little is left to wait for at the end. The file may be made later."""
    SECONDS = 0.25

    def __init__(self, path):
        super().__init__(daemon=True)
        self.path, self.over = path, threading.Event()

    def run(self):
        file = None
        while not self.over.wait(self.SECONDS):
            with contextlib.suppress(OSError):  # the wait at the end tells
                if file is None:
                    file = os.open(self.path, os.O_RDONLY | os.O_CLOEXEC)
                os.fdatasync(file)
        if file is not None:
            os.close(file)

    def end(self):
        self.over.set()
        self.join()


def counted(file):
    """How many lines an open file has from its place on, which goes to its end. Of many `wc` tells, in a quarter of the time that it takes here."""
    place = file.tell()
    if os.fstat(file.fileno()).st_size - place > BLOCK:
        with contextlib.suppress(OSError, ValueError):
            ran = subprocess.run(["wc", "-l"], stdin=file, stdout=subprocess.PIPE, stderr=subprocess.DEVNULL)
            if not ran.returncode:
                return int(ran.stdout)
        file.seek(place)
    return sum(block.count(b"\n") for block in iter(lambda: file.read(BLOCK), b""))


class Lines(threading.Thread):
    """Counts the lines of a plain file that the memory still holds, from a place on; none of another file. What is written to one that `grows`
    is counted as it comes, until that is over."""
    SECONDS = 0.1

    def __init__(self, path, place, grows=False):
        super().__init__(daemon=True)
        self.count, self.file, self.over = None, None, threading.Event()
        if not grows:
            self.over.set()
        with contextlib.suppress(OSError):
            self.file = open(path, "rb", buffering=0)  # now: the file may have another name before the thread runs
            self.file.seek(place)

    def run(self):
        if self.file is None:
            return
        count = 0
        with contextlib.suppress(OSError), self.file as file:
            while True:
                is_over = self.over.is_set()  # looked at before the file is read: then all is there
                kind = os.fstat(file.fileno())
                if not stat.S_ISREG(kind.st_mode) or kind.st_size - file.tell() > of_machine() // 2:
                    return
                count += counted(file)
                if is_over:
                    self.count = count
                    return
                self.over.wait(self.SECONDS)


class LinesOfParts:
    """The lines of all these files, each of which a thread counts: none where one was not counted."""

    def __init__(self, threads):
        self.threads, self.count, self.over = list(threads), None, threading.Event()

    def join(self):
        for it in self.threads:
            it.join()
        counts = [it.count for it in self.threads]
        self.count = None if None in counts else sum(counts)


def begun(thread):
    """Starts a thread. It holds signals back for good: they are the main thread's."""
    with held_signals():
        thread.start()
    return thread


class Output:
    """The answer's file. `descriptor` is what a program writes to; `finish` gives the file its name. Left before, it leaves nothing.
    `is_made` tells whether it is a file of its own, and no device, pipe or standard output; `is_direct` whether it is made in place, and nothing is
    written to the descriptor."""
    is_direct = False

    def __init__(self, name, children, is_last=True, threads=1, form="text"):
        self.name, self.children, self.is_last, self.threads, self.form = name, children, is_last, threads, form
        self.shown = "standard output" if name is None else shown(name)
        self.work = self.packer = self.packing = self.counter = self.counted = self.flush = None
        self.is_made, self.start = False, 0
        self.descriptor = self.file = 1

    def __enter__(self):
        if self.name is None:
            self.start = place_of(1)
            return self
        self.packing = packed_by(self.name)
        command = packing.packer(self.packing, self.shown, self.threads) if self.packing else None
        try:
            if is_replaced(self.name):
                check_end(self.name, self.form)
                self._make()
                self.is_made = True
            else:
                self.descriptor = self.file = os.open(self.name, os.O_WRONLY | os.O_CLOEXEC)
        except OSError as fault:
            raise Fault("%s: %s" % (self.shown, reason(fault))) from None
        if command:
            self._pack(command)
        return self

    def _pack(self, command):
        """Has the command pack what is written, by way of the counter of its lines."""
        source, sink = os.pipe()
        widened(sink)
        self.packer = self.children.start(command, stdin=source, stdout=self.file)
        os.close(source)
        source, self.descriptor = os.pipe()
        widened(self.descriptor)
        self.counter = begun(Counter(source, sink))

    def __exit__(self, *fault):
        if self.counted:
            self.counted.over.set()
        if self.flush:
            self.flush.end()
        for descriptor in {self.descriptor, self.file} - {1, None}:
            with contextlib.suppress(OSError):
                os.close(descriptor)
        with held_signals(), contextlib.suppress(OSError):
            if self.work:
                TEMPORARY.discard(self.work)
                os.unlink(self.work)

    def _make(self):
        """Makes the file that is written to, beside the one that it becomes, with the mode that a new or the old one has."""
        final = self.name = os.path.realpath(self.name)
        mode = mode_of(final)
        with held_signals():
            self.file, self.work = leftovers.new_file(os.path.dirname(final))
            TEMPORARY.add(self.work)
        self.descriptor = self.file
        os.fchmod(self.file, mode)
        self.flush = begun(Flush(self.work))

    def follow(self):
        """Counts the lines of the file while it is written from its front to its end."""
        if self.work and not self.packer:
            self.counted = begun(Lines(self.work, 0, grows=True))

    def opened(self):
        """What a program writes to."""
        return self.descriptor

    def let_go(self):
        """Closes what a program writes to, once that program has it: the packer sees the end when the program ends."""
        if self.packer and self.descriptor is not None:
            os.close(self.descriptor)
            self.descriptor = None

    def write(self, text):
        """Writes bytes that this command itself made."""
        try:
            write_all(self.descriptor, text)
        except BrokenPipeError:
            if self.packer is None:
                raise Quiet from None
        except OSError as fault:
            raise Fault("%s: %s" % (self.shown, reason(fault))) from None

    def judge_packer(self):
        """Waits for the packer, and tells why it did not pack all, if so."""
        self.counter.join()
        status = self.packer.wait()
        if status:
            raise Fault("%s: it cannot be packed by %s (%s)%s" % (
                self.shown, self.packing, signal_of(status) or told(self.packer) or "status %d" % status, self.why()))

    def finish(self, is_counted=False):
        """Waits until all is on the disk, and gives the file its name. Meanwhile its lines are counted, if they are wanted."""
        self.let_go()
        if self.packer:
            self.judge_packer()
        if self.counted:
            self.counted.over.set()
        elif is_counted and not self.packer and (self.is_made or self.name is None):
            self.counted = begun(Lines(self.work or "/proc/self/fd/1", self.start))
        if self.work is None:
            return
        try:
            self.flush.end()
            os.fsync(self.file)
            if self.is_last:
                too_late()
            with held_signals():
                os.replace(self.work, self.name)
                TEMPORARY.discard(self.work)
                self.work = None
            folder = os.open(os.path.dirname(self.name), os.O_RDONLY)
            with contextlib.suppress(OSError):
                os.fsync(folder)
            os.close(folder)
        except OSError as fault:
            raise Fault("%s: %s" % (self.shown, reason(fault))) from None

    def lines(self):
        """How many lines the answer has, where it is packed, or where they were counted; else none."""
        if self.counter:
            return self.counter.lines
        if self.counted is None:
            return None
        self.counted.join()
        return self.counted.count

    def is_closed(self):
        """Whether nobody reads any more what is written."""
        try:
            asked = select.poll()
            asked.register(self.file, select.POLLOUT)
            return any(event & (select.POLLERR | select.POLLHUP) for _, event in asked.poll(0))
        except OSError:
            return False

    def why(self):
        """': no space left on the disk' where that is so, else nothing."""
        try:
            room = os.fstatvfs(self.file)
        except OSError:
            return ""
        return ": no space left on its disk" if room.f_blocks and room.f_bavail * room.f_frsize < 1 << 16 else ""


def place_of(descriptor):
    """Where the next byte goes, of a regular file; else 0."""
    try:
        kind = os.fstat(descriptor)
        if not stat.S_ISREG(kind.st_mode):
            return 0
        return kind.st_size if fcntl.fcntl(descriptor, fcntl.F_GETFL) & os.O_APPEND else os.lseek(descriptor, 0, os.SEEK_CUR)
    except OSError:
        return 0


@contextlib.contextmanager
def text_output(name, children, threads=1, form="text"):
    """A stream that this command itself writes the answer to."""
    with Output(name, children, threads=threads, form=form) as output:
        stream = open(output.descriptor, "wb", buffering=1 << 18, closefd=False)
        try:
            yield stream
            stream.flush()
        except BrokenPipeError:
            if output.packer is None:
                drop(stream)
                raise Quiet from None
        except OSError as fault:
            drop(stream)
            raise Fault("%s: %s" % (output.shown, reason(fault))) from None
        except BaseException:
            drop(stream)
            raise
        output.finish()


def drop(stream):
    """Lets go of what a stream could not write. Its descriptor stays open."""
    stream.raw.close()


def say(text):
    """Writes a line to standard output."""
    try:
        sys.stdout.write(text + "\n")
        sys.stdout.flush()
    except OSError as fault:
        os.dup2(os.open(os.devnull, os.O_WRONLY), 1)  # where Python's end would try again
        raise Quiet if isinstance(fault, BrokenPipeError) else Fault("standard output: %s" % reason(fault)) from None
