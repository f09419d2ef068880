"""The options that several commands have, and what they say to kmc."""
import os
import types

from futoncrane import databases, memory, report
from futoncrane.faults import Misuse, shown
from futoncrane.inputs import is_same_file
from futoncrane.options import MOST, Option, at_most, file_of_names, number, size

MOST_THREADS = 16


def processors():
    """The processors that this process may use."""
    return len(os.sched_getaffinity(0)) if hasattr(os, "sched_getaffinity") else os.cpu_count() or 1


def k_option(default):
    return Option(["-k"], "k", "LENGTH", number(1, 64), default, "symbols of a k-mer, 1 to 64 (%d)" % default, ["--k"], glues=True)


LIMITS = [
    Option(["--min"], "least", "COUNT", number(0, MOST), 2, "k-mers that occur less often are left out (2)", ["-ci", "--ci"]),
    Option(["--max"], "greatest", "COUNT", number(0, MOST, MOST), MOST, "k-mers that occur more often are left out (none: no limit)", ["-cx", "--cx"]),
]
CAP = Option(["--cap"], "cap", "COUNT", number(1, MOST, MOST), 255, "the greatest count that is shown, or none (255)", ["-cs", "--cs"])
STRANDS = Option(["--forward"], "forward", text="counts words as they are read, each strand apart", default=False, hidden=["-b"])
BOTH = Option(["--both-strands"], "forward", text="counts a k-mer together with its reverse complement (so it is)", default=False, constant=False)
OUT = Option(["-o", "--output"], "out", "FILE", text="writes to this file, packed where it ends in .gz or .zst; it has its name only once it "
             "is whole (standard output)")
QUIET = Option(["--quiet", "-q"], "quiet", default=False, text="tells nothing but faults: no progress, no warning and not what was done")
OUT_DUMP = Option(["-o", "--output"], "out", "FILE", text="writes to this file, packed where it ends in .gz or .zst, and NAME.kmc as a sorted "
                  "database in NAME.kmc_pre and NAME.kmc_suf; they have their names only once all is whole (standard output)")
JSON = Option(["--json"], "json", "FILE", text="writes what was done into this file: k, limits, inputs, k-mers, time and memory")
FILES = Option(["--files"], "lists", "LIST", file_of_names, text="a file with the names of files of reads, one a line; @LIST is the same")
THREADS = Option(["--threads", "-t"], "threads", "N", at_most(MOST_THREADS), glues=True,
                 text="threads, 1 to 16 (as many as there are processors)")
MEMORY = Option(["--memory", "-m"], "memory", "SIZE", size(64 << 20), glues=True, text="memory that the run may take, as 8G or 500M: what is estimated to "
                "want more is done in slices, and a program that takes more is ended (none: the machine's memory)")
SLICES = Option(["--slices"], "slices", "N", number(1, memory.MOST_SLICES), text="so many slices, 1 to 1000, some of which are listed at a time (as many as the memory wants)")
DIRECTORY = Option(["--directory"], "directory", "DIR", text="where files of the meantime lie, which slices need (beside -o, else TMPDIR)")
# KMC's words for what is seen or chosen here
OLD = [
    Option([], "format", hidden=["-fq", "--fq"], constant="FASTQ"),
    Option([], "format", hidden=["-fa", "-fm", "--fa", "--fm"], constant="FASTA"),
    Option([], "splitters", "N", number(1, MOST_THREADS), hidden=["-sp", "--sp"]),
    Option([], "counters", "N", number(1, MOST_THREADS), hidden=["-sr", "--sr"]),
    Option([], "signature", "N", number(5, 11), hidden=["-p", "--p"]),
    Option([], "bins", "N", number(1, memory.MOST_BINS), hidden=["-n", "--n"]),
]
ABOUT_RUNS = [BOTH, STRANDS, THREADS, MEMORY, SLICES, DIRECTORY, FILES, JSON, QUIET, *OLD]


def check_names(given):
    """That what is written beside the answer, --json and --png, is neither the answer, nor its note, nor a file that is read."""
    out = given.get("out")
    for key in ("json", "png"):
        path = given.get(key)
        if path is None:
            continue
        if out is not None and databases.file_of(os.path.abspath(path)) in (databases.file_of(os.path.abspath(out)), os.path.abspath(out) + ".json"):
            raise Misuse("%s: -o writes there too: name another file for --%s" % (shown(path), key))
        if any(is_same_file(name, path) for name in given["files"] if name != "-"):
            raise Misuse("%s: it is read, and cannot be written at the same time" % shown(path))


def settings(asked, least=1, greatest=MOST, cap=MOST):
    """What a run is told, from the words of a command; the limits are those given here where the command has none."""
    given = vars(asked)
    check_names(given)
    threads = min(MOST_THREADS, given.get("threads") or processors())
    if (given.get("threads") or 0) > MOST_THREADS:
        report.say("--threads %d is taken as %d, the most there are" % (given["threads"], MOST_THREADS), asked.quiet)
    return types.SimpleNamespace(
        k=given.get("k"), forward=given.get("forward", False), quiet=asked.quiet, memory=given.get("memory"), format=given.get("format"), threads=threads,
        splitters=given.get("splitters") or threads, counters=given.get("counters") or threads, signature=given.get("signature"),
        bins=given.get("bins"), slices=given.get("slices"), directory=given.get("directory"), keep=given.get("keep", False), out=given.get("out"),
        least=given.get("least", least), greatest=given.get("greatest", greatest), cap=given.get("cap", cap), most=MOST,
        report=report.Report(not asked.quiet or given.get("json") is not None))


def words(told, format_name, cap=None):
    """KMC's words for these settings: those for cutting, and those for listing, with the cap that is wanted or the one that the inputs allow."""
    return words_of_cut(told, format_name) + words_of_list(told, cap=cap)


def words_of_cut(told, format_name, splitters=None):
    found = ["-k%d" % told.k, "-sp%d" % (splitters or told.splitters), "-fm" if format_name == "FASTA" else "-fq"]
    found += ["-p%d" % told.signature] if told.signature else []
    return found + (["-n%d" % told.bins] if told.bins else [])


def cap_of(told):
    """The cap that a program is given: counts take less memory where none can be as great as the one that is asked for."""
    return min(told.cap, told.most)


def words_of_list(told, counters=None, cap=None):
    found = ["-ci%d" % told.least, "-cx%d" % told.greatest, "-cs%d" % (cap or cap_of(told)), "-sr%d" % (counters or told.counters)]
    return found + (["-b"] if told.forward else [])


def size_of(told, inputs, format_name):
    """A guess at the symbols of the inputs, and at how many k-mers are listed. Of what comes through a pipe nothing is known."""
    symbols = sum(it.symbols() for it in inputs)
    return symbols, memory.listed_of(symbols, format_name, told.k, told.least)


def plan(told, symbols, listed):
    """How many slices, as the words say or as the memory wants. What is estimated not to fit in any number is refused."""
    room, at_once = told.memory or memory.of_machine(), min(2, told.counters)
    found = memory.plan(symbols, listed, told.k, cap_of(told), told.threads, room, at_once)
    if told.slices:
        bins = memory.MOST_BINS if told.slices > memory.FEW_SLICES else memory.BINS
        found = found._replace(slices=told.slices, bins=bins)
    if found.slices is None:
        memory.refuse(found, room, told.memory is not None)
    if told.bins and found.slices > told.bins:
        raise Misuse("there are %d slices, and -n says %d bins: a slice wants a bin" % (found.slices, told.bins))
    if not told.bins and found.bins != memory.BINS:
        told.bins = found.bins
    return found
