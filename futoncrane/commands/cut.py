"""futoncrane cut: reads as the records of slices, which are listed apart."""
import os

from futoncrane import doubts, folders, inputs, memory, report, run, shared, slices
from futoncrane.children import TEMPORARY, Children, held_signals
from futoncrane.faults import Fault, Misuse, reason, shown
from futoncrane.options import Option

USAGE = "[option ..] -o PREFIX [FILE ..]"
TEXT = """
Cuts the reads in the files, all together, into the records of slices, in files PREFIX.0, PREFIX.1 and so on, one for each slice. All k-mers
of one slice stand in its file, so each slice is counted apart, by futoncrane list, in its share of the memory. The dumps of all slices are
joined by futoncrane merge.

Parts of the reads may be cut apart, on several machines or as they come, all with the same -k and --slices: then a slice is listed from the
files of all parts. Neither the limits nor the strands matter here: the files can be listed with several.

The files take about 1.1 bytes for each symbol. The cutting is done by kmc_cut, whose memory does not grow with the reads. A file of reads is
plain or packed, as for futoncrane count.
"""
OPTIONS = [
    shared.k_option(31), shared.SLICES,
    Option(["-o", "--output"], "prefix", "PREFIX", text="how the files' names begin; they have their names only once all are whole"),
    Option(["--force"], "force", default=False, text="writes over files that are there"),
    shared.THREADS, shared.MEMORY, shared.FILES, shared.JSON, shared.QUIET, *[it for it in shared.OLD if it.key != "counters"],
]
EXAMPLES = [
    "futoncrane cut -k 31 --slices 8 -o lane_a lane_a.fastq.gz",
    "futoncrane cut -k 31 --slices 8 -o lane_b lane_b.fastq.gz",
    "futoncrane list -o slice.0.dump lane_a.0 lane_b.0      # and so on to slice.7.dump",
    "futoncrane merge --min 1 --cap none -o whole.dump slice.*.dump",
]


def check_free(names, force):
    """That no file of these names is there, unless it may be written over."""
    for it in names:
        if os.path.isdir(it):
            raise Fault("%s: it is a folder" % shown(it))
        if not force and os.path.lexists(it):
            raise Fault("%s: it is there already; --force writes over it" % shown(it))


def main(asked):
    if not asked.prefix:
        raise Misuse("no name is given for the files: -o PREFIX")
    with Children() as children:
        found, setting = run.open_inputs(asked.files), shared.settings(asked)
        format_name = inputs.format_of_all(found, setting.format)
        symbols, listed = shared.size_of(setting, found, format_name)
        number = shared.plan(setting, symbols, listed).slices
        finals = ["%s.%d" % (asked.prefix, it) for it in range(number)]
        check_free(finals, asked.force)
        for final in finals:
            if any(inputs.is_same_file(name, final) for name in asked.files if name != "-"):
                raise Misuse("%s: it is read, and cannot be written at the same time" % shown(final))
        directory = os.path.dirname(os.path.abspath(finals[0]))
        if not os.path.isdir(directory):
            raise Fault("%s: there is no such folder" % shown(os.path.dirname(asked.prefix)))
        folders.check_room(directory, memory.disk(symbols), "name files on another disk by -o, or cut fewer reads at once")
        if not setting.slices:
            report.say("%d slice%s" % (number, "" if number == 1 else "s"), setting.quiet)
        made = slices.cut(found, setting, format_name, number, os.path.join(folders.made(directory), "part"), children)
        setting.report.doubt = doubts.of(found, setting)
        with held_signals():
            try:
                for path, final in zip(made, finals):
                    os.replace(path, final)
            except OSError as fault:
                raise Fault("%s: %s" % (shown(final), reason(fault))) from None
            TEMPORARY.difference_update(made)
    if not any(it.is_stream for it in found):
        setting.report.bytes_read = sum(it.bytes for it in found)
    run.tell("cut", setting, asked, asked.files)
    return 0
