"""futoncrane doctor: what is installed, and whether it works."""
import bz2
import gzip
import lzma
import os
import platform
import shutil
import subprocess
import sys
import tempfile

from futoncrane import databases, memory, packing, places, reading, shared
from futoncrane.children import Children
from futoncrane.commands import cluster
from futoncrane.faults import Fault, Misuse, reason
from futoncrane.output import Output, say
from futoncrane.run import open_inputs, run
from futoncrane import options

USAGE = ""
TEXT = """
Tells which programs are there, their versions, the memory and the processors, and tries them on the example that comes with them: each must
give its known dump. The status is 0 where all that is needed works.

What is packed by gzip, bzip2 or xz is unpacked by this Python where no program is installed; zstd wants its program.
"""
OPTIONS = [shared.QUIET]
EXAMPLES = ["futoncrane doctor"]

# programs that are used where they are installed, and what for
HELPERS = [("pigz", "gzip, faster"), ("gzip", "gzip"), ("lbzip2", "bzip2, faster"), ("bzip2", "bzip2"), ("xz", "xz"), ("zstd", "zstd"),
           ("samtools", "BAM, CRAM and SAM"), ("gnuplot", "pictures by --png")]


def version_of(path):
    """The first line that a program tells of itself."""
    try:
        ran = subprocess.run([path, "--version"], stdin=subprocess.DEVNULL, stdout=subprocess.PIPE, stderr=subprocess.STDOUT, timeout=20)
    except (OSError, subprocess.SubprocessError):
        return "it cannot be run"
    return (ran.stdout.decode(errors="replace").strip().splitlines() or ["no version is told"])[0]


def counted(names, out, **others):
    """The dump that `futoncrane count` makes of these files with kmc's defaults."""
    words = ["-k25", "--quiet", *names]
    asked = options.parse(words, [shared.k_option(25), *shared.LIMITS, shared.CAP, *shared.ABOUT_RUNS])
    setting = shared.settings(asked)
    vars(setting).update(others)
    with Children() as children, Output(out, children, is_last=False) as output:
        run(open_inputs(asked.files), setting, children, output)
        output.finish()
    with open(out, "rb") as dump:
        return dump.read()


def merged(program, words):
    """What a program that merges or joins writes of the dumps that these words name."""
    ran = subprocess.run([places.find(program), *words], stdin=subprocess.DEVNULL, stdout=subprocess.PIPE, stderr=subprocess.PIPE)
    if ran.returncode:
        raise Fault("%s ended with status %d: %s" % (program, ran.returncode, ran.stderr.decode(errors="replace").strip()))
    return ran.stdout


def write(path, text):
    with open(path, "wb") as file:
        file.write(text)
    return path


def packed_examples(reads, folder):
    """Pairs of what packs, and the example packed by it."""
    yield "gzip", write(os.path.join(folder, "reads.gz"), gzip.compress(reads))
    yield "bzip2", write(os.path.join(folder, "reads.bz2"), bz2.compress(reads))
    yield "xz", write(os.path.join(folder, "reads.xz"), lzma.compress(reads))
    if shutil.which("zstd"):
        yield "zstd", write(os.path.join(folder, "reads.zst"), subprocess.run(
            ["zstd", "-cq"], input=reads, stdout=subprocess.PIPE, check=True).stdout)


def trials(folder):
    """Pairs of what is tried, and a call that tells whether it gave the example's dump."""
    with open(places.READS, "rb") as reads, open(places.DUMP, "rb") as dump:
        reads, wanted = reads.read(), dump.read()
    out = os.path.join(folder, "dump")
    yield "kmc counts the example", lambda: counted([places.READS], out) == wanted
    yield "two files together", lambda: counted(halves(reads, folder), out) == wanted
    yield "kmc_cut and kmc_list count it in slices", lambda: counted([places.READS], out, slices=3, directory=folder) == wanted
    whole = {"least": 1, "cap": options.MOST}
    for program, words in (("kmc_merge", []), ("kmc_db", ["union"])):
        yield "%s sums its parts" % program, lambda: sum_of_parts(program, words, halves(reads, folder), folder, whole) == wanted
    yield "kmc_db keeps it as a database", lambda: database_of(os.path.join(folder, "reads")) == wanted
    for kind, path in packed_examples(reads, folder):
        program = os.path.basename(packing.unpacker(kind, path)[0])
        yield "%s, by %s" % (kind, program if program in packing.KINDS[kind][2] else "this Python"), lambda path=path: counted([path], out) == wanted


def halves(reads, folder):
    """The example in two files, cut between records."""
    lines = reads.splitlines(keepends=True)
    middle = len(lines) // 8 * 4
    return [write(os.path.join(folder, "half-%d" % number), b"".join(part)) for number, part in enumerate((lines[:middle], lines[middle:]))]


def sum_of_parts(program, words, paths, folder, whole):
    """The sum of the dumps of parts, by one of the programs that can make it."""
    dumps = [os.path.join(folder, "dump-%d" % number) for number, _ in enumerate(paths)]
    for path, dump in zip(paths, dumps):
        counted([path], dump, **whole)
    return merged(program, [*words, "-ci2", "-cx1000000000", "-cs255", *dumps])


def database_of(stem):
    """The dump of the example by way of a database of this name: kmc_db makes it, and this Python reads it."""
    with open(places.DUMP, "rb") as dump:
        ran = subprocess.run([places.find("kmc_db"), "pack", stem], stdin=dump, stdout=subprocess.DEVNULL, stderr=subprocess.PIPE)
    if ran.returncode:
        raise Fault("kmc_db ended with status %d: %s" % (ran.returncode, ran.stderr.decode(errors="replace").strip()))
    return "".join("%s\t%d\n" % it for it in reading.pairs_in(stem + databases.NAME)).encode()


def tell_programs():
    """Tells where the programs are. Whether the needed ones are there."""
    is_whole = True
    for name in places.INSTALLED:
        try:
            say("%-12s %s" % (name, places.find(name)))
        except Fault as fault:
            say("%-12s MISSING: %s" % (name, fault))
            is_whole = False
    for name, use in HELPERS:
        path = shutil.which(name)
        say("%-12s %s" % (name, "%s (%s)" % (path, version_of(path)) if path else "not installed (for %s)" % use))
    python = cluster.interpreter()
    say("%-12s %s" % ("distributed", "of %s" % python if python else "not installed (for cluster)"))
    return is_whole


def main(asked):
    if asked.files:
        raise Misuse("doctor takes no file")
    say("%-12s %s, in %s" % ("futoncrane", places.version(), places.TOP))
    say("%-12s %s, %s" % ("python", platform.python_version(), sys.executable))
    say("%-12s %d, of %s" % ("processors", shared.processors(), os.cpu_count()))
    say("%-12s %s" % ("memory", memory.human(memory.of_machine())))
    is_well = tell_programs()
    with tempfile.TemporaryDirectory(prefix="futoncrane-") as folder:
        try:
            for name, trial in trials(folder):
                is_well = attempt(name, trial) and is_well
        except OSError as fault:
            say("FAILED  %s: %s" % (fault.filename, reason(fault)))
            is_well = False
    say("all is well" if is_well else "something is wrong: see above")
    return 0 if is_well else 1


def attempt(name, trial):
    """Tries, and tells whether it went well."""
    try:
        is_good, why = trial(), ": the dump is another one"
    except Fault as fault:
        is_good, why = False, ": %s" % fault
    say("%-7s %s%s" % ("ok" if is_good else "FAILED", name, "" if is_good else why))
    return is_good
