"""futoncrane table: how many k-mers have which counts in two dumps."""
from futoncrane import joining, merging, shared
from futoncrane.children import Children
from futoncrane.options import MOST, Option, number
from futoncrane.output import Output

USAGE = "[--cap COUNT] [-o FILE] FIRST.dump SECOND.dump"
TEXT = """
Writes a line for each two counts that a k-mer of either dump has: the count in the first, a tab, the count in the second, a tab, how many
k-mers have both. A count of 0 says that the dump does not list the k-mer. The lines rise. Spectra of reads by the copies in their assembly
are drawn from it, and how alike two samples are.

Both dumps must have been made with the same -k, and with or without --forward alike: where DUMP.json stands beside a dump that is looked
at. They may be packed, or databases as NAME.kmc, and are read once, side by side. The work is done by kmc_db, whose answer is proved; large
plain dumps and databases are read by as many of it as there are threads, each for a range of k-mers.
"""
OPTIONS = [
    Option(["--cap"], "cap", "COUNT", number(1, MOST, MOST), 1000, "greater counts are taken for this, or for none (1000)", ["-cs", "--cs"]),
    shared.THREADS, shared.QUIET, shared.OUT,
]
EXAMPLES = ["futoncrane table --cap 200 -o spectra.txt reads.dump assembly.dump"]


# with a cap above this one there may be too many rows to hold
MOST_CAP = 1000


def main(asked):
    names, setting, _ = joining.two_dumps(asked, "compared")
    with Children() as children, Output(asked.out, children) as output:
        rows = joining.table_by_ranges(names, asked.cap, children, setting) if asked.cap <= MOST_CAP else None
        if rows is None:
            merging.merged(names, [], children, setting, output, program="kmc_db", words=["table", "-cs%d" % asked.cap], is_dump=False)
        else:
            output.write(b"".join(b"%d\t%d\t%d\n" % row for row in rows))
        output.finish()
    return 0
