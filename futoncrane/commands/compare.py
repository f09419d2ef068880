"""futoncrane compare: the k-mers that two dumps share, and how well an assembly has those of its reads."""
import bisect
import math

from futoncrane.children import Children
from futoncrane.dumps import Dump
from futoncrane.faults import Fault, Misuse
from futoncrane.inputs import is_same_file
from futoncrane.options import MOST, Option, number
from futoncrane.output import Output, text_output
from futoncrane import joining, merging, notes, shared

USAGE = "[--common | --first | --second | --same | --assembly] [-o FILE] FIRST.dump SECOND.dump"
TEXT = """
Writes how many k-mers are in both dumps, in the first alone and in the second alone, and their Jaccard index: the number of k-mers in both
over the number of those in one or both; of two empty dumps it is 1.

With --assembly the first dump is that of reads and the second that of their assembly, which wants --min 1 --cap none, and two lines more are
written, by Merqury's formulas. Completeness is how many of a hundred solid k-mers of the reads the assembly has; which are solid --solid
says. QV is -10 log10 E, where 1 - E, to the power of k, is the part of the assembly's k-mers, each as often as it occurs, that the reads
have; without any that they lack it is inf. Where the dump of the reads leaves out what was met once, QV is a little less than Merqury's.

Both dumps must have been made with the same -k, and with or without --forward alike: where DUMP.json stands beside a dump that is looked
at. They may be packed, or databases as NAME.kmc.
"""
OPTIONS = [
    Option(["--common"], "what", constant="common", text="writes the k-mers of both, each with its two counts"),
    Option(["--first"], "what", constant="first", text="writes the lines of the first dump whose k-mers are not in the second"),
    Option(["--second"], "what", constant="second", text="writes the lines of the second dump whose k-mers are not in the first"),
    Option(["--same"], "what", constant="same", text="writes the lines that stand in both: k-mers with equal counts"),
    Option(["--assembly"], "what", constant="assembly", text="tells the completeness and the quality (QV) of the second, an assembly of the first's reads"),
    Option(["--solid"], "solid", "COUNT", number(1, MOST), 1, "k-mers of the reads that occur so often are solid, with --assembly (1: each that is listed)"),
    shared.THREADS, shared.QUIET, shared.OUT,
]
EXAMPLES = ["futoncrane compare mother.dump child.dump", "futoncrane compare --second -o new.dump mother.dump child.dump.gz",
            "futoncrane compare --assembly --solid 5 reads.dump assembly.dump"]


def ranges(first, second):
    """Both dumps in ranges of k-mers that no other range has: for each a dictionary of k-mers and counts from either."""
    held = [[], []], [[], []]
    ended = [False, False]
    while True:
        for side, dump in enumerate((first, second)):
            if not held[side][0] and not ended[side]:
                held[side][:] = dump.more()
                ended[side] = not held[side][0]
        if first.k and second.k and first.k != second.k:
            raise Fault("the k-mers have %d symbols in %s and %d in %s" % (first.k, first.name, second.k, second.name))
        lasts = [words[-1] for words, _ in held if words]
        if not lasts:
            return
        bound, parts = min(lasts), []
        for it in held:
            place = bisect.bisect_right(it[0], bound)
            parts.append(dict(zip(it[0][:place], it[1][:place])))
            it[0], it[1] = it[0][place:], it[1][place:]
        yield parts


def lines_of(what, one, other):
    """The lines of a range that are asked for."""
    if what == "common":
        return [b"%b\t%b\t%b\n" % (word, count, other[word]) for word, count in one.items() if word in other]
    if what == "same":
        return [b"%b\t%b\n" % (word, count) for word, count in one.items() if other.get(word) == count]
    kept, dropped = (one, other) if what == "first" else (other, one)
    return [b"%b\t%b\n" % (word, count) for word, count in kept.items() if word not in dropped]


def is_for_kmc_db(asked):
    """Whether kmc_db can do it: it reads each dump by its name, and gives one count for each k-mer."""
    return asked.what in (None, "first", "second", "assembly") and "-" not in asked.files and not is_same_file(*asked.files)


def alone(asked, children, setting):
    """Writes the lines of the one dump whose k-mers are not in the other."""
    names = asked.files if asked.what == "first" else asked.files[::-1]
    with Output(asked.out, children) as output:
        merging.merged(names, merging.WHOLE, children, setting, output, program="kmc_db", words=["subtract"])
        output.finish()


def numbers(rows):
    """How many k-mers are in both, in the first and in the second."""
    return [sum(many for one, other, many in rows if is_in(one, other)) for is_in in (
        lambda one, other: one and other, lambda one, other: one, lambda one, other: other)]


def quality(rows, k, solid):
    """The lines of an assembly: its completeness in 100, and its quality."""
    known = [(other, many) for one, other, many in rows if one >= solid]
    whole, found = sum(many for _, many in known), sum(many for other, many in known if other)
    total, only = sum(other * many for _, other, many in rows), sum(other * many for one, other, many in rows if not one)
    error = 1 - (1 - only / total) ** (1 / k) if total else 0
    return b"completeness\t%s\nQV\t%s\n" % tuple(text.encode() for text in (
        "%.4f" % (100 * found / whole) if whole else "none", "%.4f" % (-10 * math.log10(error)) if error > 0 else "inf"))


def length_of(names, children):
    """How many symbols the k-mers have; 1 where no dump has one."""
    for name in names:
        dump = Dump(name, children)
        dump.more()
        if dump.k:
            return dump.k
    return 1


def read_here(asked, children, lines):
    """The same numbers by this Python, which also writes the lines that are asked for."""
    both = in_first = in_second = 0
    first, second = (Dump(name, children) for name in asked.files)
    for one, other in ranges(first, second):
        if asked.what:
            lines.writelines(lines_of(asked.what, one, other))
        else:
            both += len(one.keys() & other.keys())
            in_first, in_second = in_first + len(one), in_second + len(other)
    return both, in_first, in_second


def main(asked):
    if len(asked.files) != 2 or asked.files == ["-", "-"]:
        raise Misuse("two dumps are wanted")
    if asked.what == "assembly" and not is_for_kmc_db(asked):
        raise Misuse("--assembly wants two files")
    notes.check_pair(notes.of_dumps(asked.files, "compared", asked.quiet), asked.quiet)
    setting = shared.settings(asked)
    with Children() as children:
        if is_for_kmc_db(asked) and asked.what in ("first", "second"):
            alone(asked, children, setting)
            return 0
        with text_output(asked.out, children) as lines:
            rows = joining.table_of(asked.files, MOST, children, setting) if is_for_kmc_db(asked) else None
            both, in_first, in_second = numbers(rows) if rows is not None else read_here(asked, children, lines)
            if asked.what in (None, "assembly"):
                index = both / (in_first + in_second - both) if in_first or in_second else 1
                lines.write(b"in both\t%d\nin the first alone\t%d\nin the second alone\t%d\nJaccard index\t%.6f\n" % (
                    both, in_first - both, in_second - both, index))
            if asked.what == "assembly":
                lines.write(quality(rows, length_of(asked.files, children), asked.solid))
    return 0
