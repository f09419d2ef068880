"""futoncrane list: the dump of one slice."""
import os

from futoncrane import merging, notes, run, shared, slices
from futoncrane.children import Children
from futoncrane.database_output import output_of, words_of_run
from futoncrane.faults import Misuse, shown
from futoncrane.inputs import is_same_file
from futoncrane.progress import listing

USAGE = "[option ..] FILE .."
TEXT = """
Writes the dump of one slice, from the files of this slice that futoncrane cut has made of all parts of the reads. The limits judge the true
counts. The k-mers of another slice are others, so the dumps of all slices are joined by 'futoncrane merge --min 1 --cap none'.

The files must be of one slice, and cut with the same -k and --slices. All of them must be given: of a part that is left out nothing is
counted, and nothing tells so. A file that was cut short or changed is refused. They may be packed.

The work is done by kmc_list, whose answer is proved. It takes the memory of a run over the reads of the slice.
"""
OPTIONS = [*shared.LIMITS, shared.CAP, shared.BOTH, shared.STRANDS, shared.THREADS, shared.MEMORY, shared.JSON, shared.QUIET, shared.OUT_DUMP,
           *[it for it in shared.OLD if it.key == "counters"]]
EXAMPLES = ["futoncrane list --min 3 -o slice.0.dump lane_a.0 lane_b.0", "futoncrane list --min 1 --cap none --forward -o all.0.dump lane_a.0 lane_b.0"]


def main(asked):
    names = asked.files
    if not names:
        raise Misuse("no file is given")
    if asked.out is not None and any(is_same_file(name, asked.out) for name in names if name != "-"):
        raise Misuse("%s: it is read, and cannot be written at the same time" % shown(asked.out))
    merging.check_names(names)
    setting = shared.settings(asked)
    note = note_of(names, setting) if os.path.isfile(names[0]) else None
    with Children() as children, output_of(asked, setting, children, words_of_run(setting)) as output:
        slices.listed(names, setting, children, listing(0, 1), output)
        notes.finish(output, note, setting.report, setting.quiet)
    run.tell("list", setting, asked, names)
    return 0


def note_of(names, setting):
    """What is known of the dump: of packed files the number of the slice is not, and then nothing is noted."""
    header = notes.of_header(names[0])
    if header is None:
        return None
    setting.k, of, number = header
    return notes.of_run(setting, names, {"of": of, "numbers": [number], "parts": len(names)} if of > 1 else None)
