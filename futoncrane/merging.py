"""The merge of dumps: of as many at once as may be open, and of more in levels."""
import contextlib
import os
import signal
import stat
import subprocess

from futoncrane import databases, dumping, packing, places, ranged_output, ranges
from futoncrane.children import ended, open_more, signal_of
from futoncrane.database_output import DatabaseOutput
from futoncrane.faults import Fault, Misuse, reason, shown
from futoncrane.feeding import judge_unpacker, widened
from futoncrane.options import MOST
from futoncrane.programs import judge_silence
from futoncrane.progress import Watch, merging, read_by

# what kmc_merge takes at once; and what else a process has open
MOST_DUMPS, OTHERS = 1000, 32
# the system takes command lines of so many bytes, with the environment
MOST_WORDS = 1 << 20
WHOLE = ["-ci1", "-cx%d" % MOST, "-cs%d" % MOST]


class Parts:
    """Files as the programs take them: by their names, or through pipes from programs that unpack them or, for a program that takes no database,
    write the dumps of databases."""

    def __init__(self, names, children, takes_databases=False):
        self.given, self.children, self.writers, self.pipes, self.bytes = {}, children, [], [], 0
        self.takes_databases = takes_databases
        for name in names:
            try:
                self._add(name)
            except OSError as fault:
                raise Fault("%s: %s" % (shown(name), reason(fault))) from None

    def _add(self, name):
        stem = databases.stem_of(name)
        if stem is not None:
            if self.takes_databases:
                self._add_database(name, stem)
            else:
                self._add_piped(name, None, lambda sink: dumping.dumped(stem, self.children, sink))
            return
        with open(0 if name == "-" else name, "rb", closefd=name != "-") as file:
            kind = packing.kind_of_file(file.fileno())
            if kind is not None:
                self._add_piped(name, kind, lambda sink: self.children.start(packing.unpacker(kind, shown(name)), stdin=file, stdout=sink))
                return
            self.bytes += os.fstat(file.fileno()).st_size
        self.given["/dev/stdin" if name == "-" else "./" + name if name.startswith("-") else name] = shown(name)

    def _add_database(self, name, stem):
        """The database itself, whose prefix file is read twice."""
        databases.checked(stem)
        prefix, suffix = databases.files_of(dumping.word_of(stem))
        self.bytes += 2 * os.path.getsize(prefix) + os.path.getsize(suffix)
        self.given[prefix] = shown(name)

    def _add_piped(self, name, kind, start):
        """A file that is read through a pipe: `start` begins what writes to it."""
        source, sink = os.pipe()
        widened(sink)
        child = start(sink)
        os.close(sink)
        self.pipes.append(source)
        self.writers.append((shown(name), kind, child))
        self.given["/dev/fd/%d" % source] = shown(name)

    def total(self):
        return None if self.writers else self.bytes

    def place(self, program):
        return read_by(program)

    def let_go(self):
        """Closes the pipes, once the program has them."""
        for it in self.pipes:
            os.close(it)

    def judge(self):
        """The fault of a file that was not unpacked whole, or of a database that was not read whole."""
        for name, kind, child in self.writers:
            if kind is None:
                dumping.judge(name, child)
            elif child.wait() != -signal.SIGPIPE:
                judge_unpacker(name, kind, child)
            self.children.forget(child)

    def named(self, text):
        """A fault with the files' names as the user knows them."""
        for given in sorted(self.given, key=len, reverse=True):
            if text.startswith(given + ":"):
                return self.given[given] + text[len(given):]
        return " ".join(text.split())


def check_names(names):
    """That each file is named once, by whatever name."""
    seen = {}
    for name in names:
        try:
            kind = os.stat(databases.file_of(name)) if name != "-" else os.fstat(0)
        except OSError as fault:
            raise Fault("%s: %s" % (shown(databases.file_of(name)), reason(fault))) from None
        key = (kind.st_dev, kind.st_ino) if stat.S_ISREG(kind.st_mode) else name
        if key in seen:
            first = seen[key]
            raise Misuse("%s stands twice%s" % (shown(name), "" if first == name else ", first as %s" % shown(first)))
        seen[key] = name


def is_piped(name):
    """Whether a dump is read through a pipe: a packed one, or that of a database."""
    if databases.stem_of(name) is not None:
        return True
    try:
        with open(0 if name == "-" else name, "rb", closefd=name != "-") as file:
            return packing.kind_of_file(file.fileno()) is not None
    except OSError as fault:
        raise Fault("%s: %s" % (shown(name), reason(fault))) from None


def has_ranges(name):
    """Whether ranges of k-mers can be read of a dump alone: where it is a plain file, or that of a database."""
    return databases.stem_of(name) is not None or is_plain(name)


def is_plain(name):
    """Whether a dump is a file that can be read from any place of it on."""
    return name != "-" and not name.startswith(("/dev/", "/proc/")) and os.path.isfile(name) and not is_piped(name)


def at_once(names):
    """How many of the first dumps are merged at once: one that is read through a pipe has two files open here, and names are words of a command line."""
    files, words = open_more() - OTHERS, MOST_WORDS
    for number, name in enumerate(names[:MOST_DUMPS]):
        files -= 2 if is_piped(name) else 1
        words -= len(os.fsencode(name)) + 16
        if number >= 2 and (files < 0 or words < 0):
            return number
    return MOST_DUMPS


def merged(names, limits, children, setting, output=None, reader=None, sink=None, program="kmc_merge", words=(), source=subprocess.DEVNULL,
           is_dump=True):
    """Merges these dumps at once, or joins them by another program with these words, into the output, the file `sink`, or what `reader` reads.
    Its standard input is `source`, or ours where that is one of the dumps. An answer that is a dump is made range by range where it can be."""
    joined = ranged_output.joined if isinstance(output, DatabaseOutput) else ranges.joined
    if is_dump and not reader and not sink and all(map(has_ranges, names)) and joined(names, program, [*words, *limits], children, setting, output):
        return
    parts = Parts(names, children, program == "kmc_db")
    command = [places.find(program), *words, *limits, *parts.given]
    out = subprocess.PIPE if reader else output.opened() if output else sink
    merger = children.start(command, pass_fds=parts.pipes, stdin=0 if "-" in names else source, stdout=out)
    parts.let_go()
    if output:
        output.let_go()
    with Watch(parts, merger, not setting.quiet, step=merging):
        if reader:
            reader(merger.stdout)
        status, written = ended(merger)
    parts.judge()
    if status:
        judge(merger, program, parts, output)
    setting.report.step(program)
    setting.report.written = written
    children.forget(merger)


def merge(names, limits, children, setting, folder, output=None, reader=None):
    """Merges dumps, however many: where there are too many, the first of them first, whole, into a dump in the folder that `folder` gives."""
    names, made = list(names), 0
    most = at_once(names)
    while len(names) > most:
        some = names[:min(most, len(names) - most + 1)]
        path = os.path.join(folder(), "level.%d" % made)
        with open(path, "wb") as sink:
            merged(some, WHOLE, children, setting, sink=sink)
        for it in some:
            if it.startswith(folder() + os.sep):
                with contextlib.suppress(OSError):
                    os.unlink(it)
        names, made = names[len(some):] + [path], made + 1
        most = at_once(names)
    merged(names, limits, children, setting, output, reader)


def judge(merger, program, parts, output):
    """Tells why a program that merges or joins has not done its work."""
    text, status = merger.stderr.read().decode(errors="surrogateescape").strip(), merger.returncode
    if status < 0:
        raise Fault("%s %s" % (program, signal_of(status)))
    if "cannot write" in text:
        shown_name = output.shown if output else "the merge of some dumps"
        raise Fault("%s: it cannot be written%s" % (shown_name, output.why() if output else ": no space left on its disk"))
    if text:
        raise Fault(parts.named(text.replace(program + ": ", "", 1)))
    judge_silence(program, text, status, output)
