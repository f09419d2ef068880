"""An answer that is a database: kmc_db makes its two files in a folder beside them, of the dump while that is written, or of reads that it counts
itself. They have their names only once both are whole."""
import contextlib
import os
import subprocess

from futoncrane import databases, folders, notes, places, shared
from futoncrane.children import held_signals, signal_of, sweep, told, too_late
from futoncrane.faults import Fault, Misuse, reason, shown
from futoncrane.feeding import widened
from futoncrane.output import Flush, Output, begun, is_replaced, mode_of

MADE = "made"
# how kmc_db tells that a line of a dump has a count that no database holds, and that a k-mer of reads has
TOO_GREAT = ("does not fit its bytes", "more often than the bytes of a count tell")


def output_of(asked, setting, children, words):
    """The output of a command that writes a dump: a text, or where its name ends in .kmc a database, whose header tells by `words` what the
    dump was made with."""
    if asked.out is None or not asked.out.endswith(databases.NAME):
        if asked.out is not None and asked.out.endswith((databases.PREFIX, databases.SUFFIX)):
            raise Misuse("%s: a database has two files: name it %s" % (shown(asked.out), shown(asked.out.rpartition(".")[0] + databases.NAME)))
        return Output(asked.out, children, threads=setting.threads)
    return DatabaseOutput(asked.out, setting, children, words)


def words_of(k, least, greatest, cap, is_forward):
    """How kmc_db is told what a dump was made with; k may be unknown."""
    found = ["-ci%d" % least, "-cx%d" % greatest, "-cs%d" % cap]
    return found + (["-k%d" % k] if k else []) + (["-b"] if is_forward else [])


def words_of_run(setting):
    """The same for a run over reads."""
    return words_of(setting.k, setting.least, setting.greatest, setting.cap, setting.forward)


def words_of_sum(noted, names, asked):
    """The same for a merge or a join of dumps: k and the strands as far as one of them is known. The limits are those of the answer alone, since
    KMC's tools pass over k-mers outside them, and a sum or a difference may be outside those of its parts."""
    known = notes.known([(name, dict(noted).get(name)) for name in names])
    one = known[0][1] if known else {"k": None, "strands": notes.JOINED}
    return words_of(one["k"], asked.least, asked.greatest, asked.cap, one["strands"] == notes.APART)


def width(number):
    """How many bytes of a count hold the number: four at most."""
    return next((it for it in (1, 2, 3) if number < 256**it), databases.MOST_COUNTER)


def cap_of_reads(setting):
    """The cap with which reads are counted into a database. No count is above the one that the inputs allow, and each has as many bytes as the cap
    that is asked for wants."""
    return max(shared.cap_of(setting), 256 ** (min(width(setting.cap), width(setting.greatest)) - 1))


class DatabaseOutput(Output):
    """As Output is, for a name NAME.kmc: the files are NAME.kmc_pre, which makes it a database and comes last, and NAME.kmc_suf."""

    def __init__(self, name, setting, children, words):
        super().__init__(name, children)
        self.report, self.words, self.rows = setting.report, words, None

    def __enter__(self):
        stem = self.name[:-len(databases.NAME)]
        if not os.path.basename(stem):
            raise Misuse("%s: the database has no name before %s" % (self.shown, databases.NAME))
        for it in databases.files_of(stem):
            if not is_replaced(it):
                raise Fault("%s: it is no file, and a database is written into two files" % shown(it))
        self.finals = [os.path.realpath(it) for it in databases.files_of(stem)]
        self.folder = folders.made(os.path.dirname(self.finals[0]))
        self.stem = os.path.join(self.folder, MADE)
        self.made = databases.files_of(self.stem)
        self.descriptor, self.is_made = None, True
        self.flush = begun(Flush(self.made[1]))
        return self

    def opened(self):
        """A pipe to kmc_db, which packs the dump that is written there. It is started when this is asked for."""
        if self.packer is None:
            self.packer, self.descriptor = self.packer_into(self.stem)
        return self.descriptor

    def packer_into(self, stem, k=None):
        """A kmc_db that packs a dump into a database of this name, and the pipe that the dump is written to. A dump without lines can be packed where
        the words tell its k, or where it is given here."""
        words = self.words if k is None or self.tells_k() else [*self.words, "-k%d" % k]
        source, sink = os.pipe()
        widened(sink)
        try:
            return self.children.start([places.find("kmc_db"), "pack", *words, stem], stdin=source, stdout=subprocess.DEVNULL), sink
        except Fault:
            os.close(sink)
            raise
        finally:
            os.close(source)

    def tells_k(self):
        """Whether the words tell k."""
        return any(it.startswith("-k") for it in self.words)

    def counted_by(self, words):
        """The command that counts reads, with these words of kmc, and makes the files by itself."""
        self.is_direct = True
        return [places.find("kmc_db"), "count", *words, self.stem]

    def __exit__(self, *fault):
        super().__exit__(*fault)
        if fault[0]:
            sweep()  # no program is to write into the folder any more
        folders.dropped(self.folder)

    def judge_packer(self):
        """Waits for kmc_db, and tells why it made no database, if so."""
        status = self.packer.wait()
        if not status:
            return
        said = told(self.packer).partition(": ")[2] or "kmc_db %s" % (signal_of(status) or "ended with status %d" % status)
        self.judge_files(said)
        raise Fault("%s: %s" % (self.shown, said))

    def judge_files(self, said):
        """Tells a fault that kmc_db tells of a file, or of a count that no database holds."""
        if said.endswith(TOO_GREAT):
            raise Fault("%s: a count of more than four bytes is in no database: give --cap 4294967295 or less" % self.shown)
        for made, final in zip(self.made, self.finals):
            if said.startswith(made + ": "):
                raise Fault("%s: it %s%s" % (shown(final), said[len(made) + 2:], self.why()))

    def finish(self, is_counted=False):
        """Waits until both files are whole and on the disk, and gives them their names."""
        if not self.is_direct:
            self.opened()  # also where no dump is written, as where there is none of any slice
            self.let_go()
            self.judge_packer()
        self.rows = self.rows_made()
        self.flush.end()
        for made, final in zip(self.made, self.finals):
            try:
                os.chmod(made, mode_of(final))
                flushed(made)
            except OSError as fault:
                raise Fault("%s: %s" % (shown(final), reason(fault))) from None
        if self.is_last:
            too_late()
        self._move()
        for it in {os.path.dirname(final) for final in self.finals}:
            with contextlib.suppress(OSError):
                flushed(it)
        self.report.step("kmc_db")

    def rows_made(self):
        """How many rows the header of the files that were made tells."""
        return databases.header_of(self.stem).rows

    def _move(self):
        """Gives the files their names. Older ones are put aside first, so that none stands beside a new one; after a fault all is as it was."""
        older = [os.path.join(self.folder, "older.%d" % it) for it, _ in enumerate(self.finals)]
        moves, done = [*zip(self.finals, older), *zip(self.made[::-1], self.finals[::-1])], []
        with held_signals():
            try:
                for source, target in moves:
                    if source in self.made or os.path.exists(source):
                        os.replace(source, target)
                        done.append((target, source))
            except OSError as fault:
                for it in reversed(done):
                    os.replace(*it)
                raise Fault("%s: %s" % (shown(source if source in self.finals else target), reason(fault))) from None

    def lines(self):
        """How many k-mers the database has."""
        return self.rows

    def is_closed(self):
        """Nobody but kmc_db reads what is written."""
        return False

    def why(self):
        """': no space left on its disk' where that is so, else nothing."""
        room = os.statvfs(os.path.dirname(self.finals[0]))
        return ": no space left on its disk" if room.f_blocks and room.f_bavail * room.f_frsize < 1 << 16 else ""


def flushed(path):
    """Waits until a file, or what a folder names, is on the disk."""
    descriptor = os.open(path, os.O_RDONLY)
    try:
        os.fsync(descriptor)
    finally:
        os.close(descriptor)
