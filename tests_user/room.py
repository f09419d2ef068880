"""What the tests of users share: a folder of its own for each, the command, and plain programs to compare with."""
import os
import re
import shutil
import subprocess
import sys
import tempfile
import time
import unittest

TOP = os.path.dirname(os.path.dirname(os.path.abspath(__file__)))
BIN = os.path.abspath(os.environ.get("FUTONCRANE_BIN") or TOP)
# as the command starts its Python itself
COMMAND = [sys.executable, "-S", os.path.join(TOP, "futoncrane", "futoncrane")]
READS = os.path.join(TOP, "examples", "reads.fastq")
DUMP = os.path.join(TOP, "examples", "reads.dump")
MOST = 1 << 63
# the last line of a run, which tells what it did; and one that tells that a dump has no note beside it
SUMMARY = r"futoncrane: (?:\S+ \S+ read, )?done in \S+, at most \S+ \S+ of memory(?:: .*)?\n\Z"
NO_NOTE = r"\Afutoncrane: .*: no note \(DUMP.json\) tells what was counted there, .*\n"
# seconds that nothing takes, however slow the machine is
LONG = 300


class Skipped(unittest.SkipTest):
    """Why a test cannot be made here."""


def need(*programs):
    """Skips the test where a program is not installed."""
    for it in programs:
        if shutil.which(it) is None:
            raise Skipped("%s is not installed" % it)


def content(path):
    with open(path, "rb") as file:
        return file.read()


def wanted_dump():
    """The example's dump with kmc's defaults, which bench/count_plainly.py made."""
    return content(DUMP)


def plainly(text, k, least=2, greatest=MOST, cap=255, *apart):
    """The dump of a FASTQ text by the plain program."""
    words = [sys.executable, os.path.join(TOP, "bench", "count_plainly.py"), *map(str, (k, least, greatest, cap)), *apart]
    return subprocess.run(words, input=text, stdout=subprocess.PIPE, check=True).stdout


def program(name):
    """The path of a proved program."""
    for it in (name, "futoncrane-" + name.replace("_", "-")):
        if os.access(os.path.join(BIN, it), os.X_OK):
            return os.path.join(BIN, it)
    raise Skipped("%s is not built" % name)


class Told:
    """How a command ended."""

    def __init__(self, status, out, err):
        self.status, self.out, self.err = status, out, err

    def __repr__(self):
        return "status %d, %d bytes written%s, told: %s" % (self.status, len(self.out), ": %r" % self.out[:200] if self.out else "", self.err)


class Room:
    """A folder for one test, which is the working folder of what it runs."""

    def __init__(self, base):
        self.folder = tempfile.mkdtemp(dir=base)
        self.temporary = os.path.join(self.folder, "tmp")
        os.mkdir(self.temporary)
        self.environment = dict(os.environ, TMPDIR=self.temporary, FUTONCRANE_BIN=BIN)
        self.command = COMMAND

    def path(self, name):
        return os.path.join(self.folder, name)

    def write(self, name, text):
        with open(self.path(name), "wb") as file:
            file.write(text if isinstance(text, bytes) else text.encode())
        return name

    def stand_in(self, text, name="kmc"):
        """A program of our own in the place of kmc. A script before it answers who it is, as the program itself does. kmc_db, which reads
        histograms of what kmc writes, stays the real one."""
        os.makedirs(self.path("bin"), exist_ok=True)
        if name != "kmc_db" and not os.path.lexists(self.path("bin/kmc_db")):
            os.symlink(os.path.join(BIN, "kmc_db"), self.path("bin/kmc_db"))
        if os.path.islink(self.path("bin/" + name)):
            os.unlink(self.path("bin/" + name))  # so that the real one is not written over
        own = self.path("bin/%s.script" % name)
        self.write(own, text)
        self.write("bin/" + name, '#!/bin/sh\nif [ "$*" = --who-is-it ]; then echo "usage: %s [..]" >&2; exit 2; fi\nexec \'%s\' "$@"\n' % (name, own))
        for it in (own, self.path("bin/" + name)):
            os.chmod(it, 0o755)
        self.environment["FUTONCRANE_BIN"] = self.path("bin")

    def run(self, *words, text=None, source=None, **others):
        """Runs futoncrane with these words; its input is `text`, the open file `source`, or empty."""
        given = {"stdin": source or subprocess.DEVNULL} if text is None else {"input": text}
        ran = subprocess.run([*self.command, *words], cwd=self.folder, env=self.environment, stdout=subprocess.PIPE, stderr=subprocess.PIPE,
                             timeout=LONG, **given, **others)
        return Told(ran.returncode, ran.stdout, ran.stderr.decode(errors="replace"))

    def counts(self, wanted, *words, told="", **others):
        """That a run writes this dump and tells nothing but these lines and what it did, in its last line. Other dumps than those of
        futoncrane have no note, which may be told too."""
        ran = self.run(*words, **others)
        assert ran.status == 0 and re.sub(SUMMARY, "", re.sub(NO_NOTE, "", ran.err)) == told, ran
        assert ran.out == wanted, "another dump: %r" % ran

    def refuses(self, status, *parts, words, **others):
        """That a run ends with this status, writes nothing, tells one line with these parts and leaves no file."""
        before = self.files()
        ran = self.run(*words, **others)
        assert ran.status == status and ran.out == b"", ran
        told = re.sub(NO_NOTE, "", ran.err)
        assert told.startswith("futoncrane: ") and told.count("\n") == 1 and told.endswith("\n"), ran
        for part in parts:
            assert part in ran.err, "not told: %s\n%r" % (part, ran)
        assert self.files() == before, "files are left: %s" % (self.files() - before)
        return ran

    def files(self):
        """All files below the folder."""
        return {os.path.join(folder, name) for folder, _, names in os.walk(self.folder) for name in names}

    def gone(self):
        shutil.rmtree(self.folder, ignore_errors=True)


def processes():
    """Of each process that is no zombie: its number and when it began, which no other one has, and the number of its parent."""
    for number in filter(str.isdigit, os.listdir("/proc")):
        try:
            with open("/proc/%s/stat" % number) as file:
                state, parent, *rest = file.read().rpartition(")")[2].split()
        except (OSError, ValueError):
            continue
        if state not in "ZX":
            yield (int(number), int(rest[17])), int(parent)


def descendants(root):
    """The processes that descend from the one of this number."""
    parents, found, grown = dict(processes()), set(), {root}
    while grown:
        some = {it for it, parent in parents.items() if parent in grown} - found
        found, grown = found | some, {number for number, _ in some}
    return found


def alive(family):
    """Those of the processes that still run."""
    return family & {it for it, _ in processes()}


def wait_until(is_so, what):
    """Waits for what must come, at whatever time that is."""
    end = time.monotonic() + LONG
    while not is_so():
        assert time.monotonic() < end, what + " does not come"
        time.sleep(0.02)


def wait_for(room, name):
    """Waits for a file that a program makes."""
    wait_until(lambda: os.path.exists(room.path(name)), name)
