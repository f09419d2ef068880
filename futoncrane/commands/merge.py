"""futoncrane merge: the dump of slices, or of parts that were counted apart."""
from futoncrane import folders, merging, notes, run, shared
from futoncrane.children import Children
from futoncrane.database_output import output_of, words_of_sum
from futoncrane.faults import Misuse, shown
from futoncrane.inputs import is_same_file

USAGE = "[option ..] DUMP .."
TEXT = """
Writes the dump of all the reads of which the dumps are parts: the counts of equal k-mers are added, and the limits judge the sums. The work
is done by kmc_merge, whose answer is proved.

Dumps of slices are listed within the limits already: they are merged with --min 1 --cap none. Dumps of parts of the reads must have been
counted with --min 1 --max none --cap none. All have the same -k, and are with or without --forward alike: where DUMP.json stands beside a
dump that is looked at, and what cannot be summed is refused. They may be packed, or databases as NAME.kmc.

Any number of dumps is taken. More than 1000, or than there may be files open, are merged in levels, by way of dumps in --directory. In these
a sum above 9223372036854775808 is left out.
"""
OPTIONS = [*shared.LIMITS, shared.CAP, shared.THREADS, shared.DIRECTORY, shared.JSON, shared.QUIET, shared.OUT_DUMP]
EXAMPLES = [
    "futoncrane merge --min 1 --cap none -o whole.dump slice.*.dump",
    "futoncrane count --min 1 --cap none -o a.dump.gz lane_a.fastq.gz",
    "futoncrane count --min 1 --cap none -o b.dump.gz lane_b.fastq.gz",
    "futoncrane merge --min 3 -o whole.dump a.dump.gz b.dump.gz",
]


def main(asked):
    names, made = asked.files, []
    if not names:
        raise Misuse("no dump is given")
    if asked.out is not None and any(is_same_file(name, asked.out) for name in names if name != "-"):
        raise Misuse("%s: it is read, and cannot be written at the same time" % shown(asked.out))
    merging.check_names(names)

    def folder():
        if not made:
            made.append(folders.made(folders.place_for(asked.directory, asked.out)))
        return made[0]

    setting = shared.settings(asked)
    noted = notes.of_dumps(names, "summed", asked.quiet)
    notes.check_sum(noted, len(names), asked.least, asked.greatest)
    with Children() as children, output_of(asked, setting, children, words_of_sum(noted, names, asked)) as output:
        limits = ["-ci%d" % asked.least, "-cx%d" % asked.greatest, "-cs%d" % asked.cap]
        merging.merge(names, limits, children, setting, folder, output)
        note = notes.of_sum(noted, names, asked, asked.quiet)
        notes.finish(output, note, setting.report, asked.quiet)
    setting.k, setting.forward = (note["k"], note["strands"] == notes.APART) if note else (None, None)
    run.tell("merge", setting, asked, names)
    return 0
