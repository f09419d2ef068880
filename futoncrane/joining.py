"""The join of two dumps by kmc_db: what the commands union, intersect and subtract share."""
from futoncrane import merging, notes, operands, ranges, run, shared
from futoncrane.children import Children
from futoncrane.database_output import output_of, words_of_sum
from futoncrane.faults import Misuse, shown
from futoncrane.inputs import is_same_file
from futoncrane.options import MOST, Option, number, one_of

CHOICES = ("min", "max", "sum", "diff", "left", "right")
TEXT = """
Both dumps must have been made with the same -k, and with or without --forward alike: where DUMP.json stands beside a dump that is looked
at. They may be packed, or databases as NAME.kmc, and are read once, side by side. The work is done by kmc_db, whose answer is proved; large
plain dumps and databases are joined by as many of it as there are threads, each for a range of k-mers.

The limits judge the count that the answer has for a k-mer, and every k-mer is listed unless they are given. --first-min, --first-max,
--second-min and --second-max judge the counts of the dumps, before they are joined.
"""
LIMITS = [
    Option(["--min"], "least", "COUNT", number(0, MOST), 1, "k-mers with a lower count in the answer are left out (1)", ["-ci", "--ci"]),
    Option(["--max"], "greatest", "COUNT", number(0, MOST, MOST), MOST, "k-mers with a higher count in the answer are left out (none: no limit)", ["-cx", "--cx"]),
    Option(["--cap"], "cap", "COUNT", number(1, MOST, MOST), MOST, "the greatest count that is shown, or none (none)", ["-cs", "--cs"]),
]
OPTIONS = [*LIMITS, *operands.OPTIONS, shared.THREADS, shared.JSON, shared.QUIET, shared.OUT_DUMP]


def choice(default):
    """The option that chooses the count of a k-mer of both dumps."""
    return Option(["--count"], "choice", "WHICH", one_of(CHOICES), default, "the count of a k-mer that both dumps list, from its two counts: the lesser "
                  "(min), the greater (max), their sum, the first less the second (diff; none where that is not above 0), the first (left) or the "
                  "second (right); %s where it is not given" % default)


def two_dumps(asked, doing):
    """The names of the two dumps that are asked for, what a run is told, and the notes of those that have one."""
    names = asked.files
    if len(names) != 2:
        raise Misuse("two dumps are wanted")
    if asked.out is not None and any(is_same_file(name, asked.out) for name in names if name != "-"):
        raise Misuse("%s: it is read, and cannot be written at the same time" % shown(asked.out))
    merging.check_names(names)
    setting = shared.settings(asked)
    noted = notes.of_dumps(names, doing, asked.quiet)
    notes.check_pair(noted, asked.quiet)
    return names, setting, noted


def join(command, operation, asked, words=()):
    """Joins the two dumps that are asked for, by an operation of kmc_db."""
    names, setting, noted = two_dumps(asked, "joined")
    noted = operands.limited(noted, names[0], asked)
    with Children() as children, output_of(asked, setting, children, words_of_sum(noted, names, asked)) as output:
        limits = ["-ci%d" % asked.least, "-cx%d" % asked.greatest, "-cs%d" % asked.cap]
        merging.merged(names, limits, children, setting, output, program="kmc_db", words=[operation, *words, *operands.words_of(asked)])
        note = notes.of_sum(noted, names, asked, asked.quiet)
        notes.finish(output, note, setting.report, asked.quiet)
    setting.k, setting.forward = (note["k"], note["strands"] == notes.APART) if note else (None, None)
    run.tell(command, setting, asked, names)
    return 0


def table_by_ranges(names, cap, children, setting):
    """The table of two dumps, made range by range: the two counts of a k-mer, each at most `cap`, and how many k-mers have them. The rows rise.
    None where a dump is neither a plain file nor that of a database, where they are small, or at fault."""
    if not all(map(merging.has_ranges, names)):
        return None
    found = ranges.tallied(names, "kmc_db", ["table", "-cs%d" % cap], children, setting)
    return None if found is None else [(*counts, found[counts]) for counts in sorted(found)]


def table_of(names, cap, children, setting):
    """The same table, in whichever way it can be made."""
    found, rows = table_by_ranges(names, cap, children, setting), []
    if found is None:
        merging.merged(names, [], children, setting, reader=rows.extend, program="kmc_db", words=["table", "-cs%d" % cap])
    return found if found is not None else [tuple(map(int, row.split())) for row in rows]
