"""A run over inputs, whole or in slices."""
import sys

from futoncrane import doubts, dumps, folders, inputs, memory, merging, notes, places, ranges, report, shared, slices
from futoncrane.database_output import DatabaseOutput, cap_of_reads
from futoncrane.faults import Fault, Misuse, shown
from futoncrane.programs import fed


def open_inputs(names, out=None):
    """The inputs of these names; standard input where there is none and it is no terminal."""
    if not names:
        if sys.stdin is None or sys.stdin.isatty():
            raise Misuse("no file is given (- is standard input)")
        names = ["-"]
    if names.count("-") > 1:
        raise Misuse("- stands twice: standard input is read once")
    if out is not None and any(inputs.is_same_file(name, out) for name in names if name != "-"):
        raise Misuse("%s: it is read, and cannot be written at the same time" % shown(out))
    return [inputs.Input(name) for name in names]


def run(found, setting, children, output, reader=None):
    """Counts the inputs, in one run of kmc or in slices. What is written goes to the output, or to `reader`, which is called with a stream
    of it. Answers the work in slices, if it was that: what it keeps is dropped once the answer is there."""
    format_name = inputs.format_of_all(found, setting.format)
    symbols, listed = shared.size_of(setting, found, format_name)
    setting.most = inputs.most_count(found, format_name)
    plan = shared.plan(setting, symbols, listed)
    if not any(it.is_stream for it in found):
        setting.report.bytes_read = sum(it.bytes for it in found)
    work = None
    if plan.slices != 1 or setting.slices:
        work = slices.Work(setting, found, format_name, (symbols, listed), plan, children)
        beside = None if slices.takes_parts(reader) else memory.disk_of_dumps(listed, setting.k)
        work.begin(plan.wanted, memory.disk(symbols), beside)
        work.count(output, reader)
    else:
        words, taken = shared.words(setting, format_name), reader
        if isinstance(reader, dumps.Histogram):
            command, taken = [places.find("kmc_db"), "spectrum", *words], reader.take
        elif isinstance(output, DatabaseOutput):
            command = output.counted_by(shared.words(setting, format_name, cap_of_reads(setting)))
        else:
            command = [places.find("kmc"), *words]
        fed(command, found, setting, children, output, taken, "one run, estimated to take at most %s of memory" % memory.human(plan.wanted))
        if output and output.is_direct:
            setting.report.written = output.rows_made()
    setting.report.doubt = doubts.of(found, setting)
    return work


def read(names, out, setting, children, reader):
    """Has `reader` read the dump of these files: of reads, which are counted, or of dumps, which are summed."""
    found = open_inputs(names, out)
    if any(it.format == "DUMP" for it in found):
        read_dumps(found, setting, children, reader)
    else:
        run(found, setting, children, None, reader)


def read_dumps(found, setting, children, reader):
    """Has `reader` read the sum of dumps."""
    other = next((it for it in found if it.format != "DUMP"), None)
    if other:
        dump = next(it for it in found if it.format == "DUMP")
        raise Fault("%s is a dump of k-mers, and %s is none: count them apart" % (dump.shown, other.shown))
    stream = next((it for it in found if it.is_stream), None)
    if stream:
        raise Fault("%s: it is a dump of k-mers, which is taken from a file and not from a pipe" % stream.shown)
    names = [it.name for it in found]
    merging.check_names(names)
    noted = notes.of_dumps(names, "summed", setting.quiet)
    notes.check_sum(noted, len(names), setting.least, setting.greatest)
    setting.report.is_partial = len(noted) < len(names) or not all(notes.is_whole(note) for _, note in noted)
    for name, note in noted:
        if not notes.is_whole(note):
            report.say("%s was counted with %s: the answer lacks what these leave out" % (shown(name), notes.limits_of(note)), setting.quiet)
    setting.k, setting.report.bytes_read = found[0].k, sum(it.bytes for it in found)
    if isinstance(reader, dumps.Histogram) and len(names) == 1 and setting.cap >= setting.greatest and merging.has_ranges(names[0]):
        found = ranges.tallied(names, "kmc_db", ["histogram"], children, setting)
        if found is not None:
            reader.add({count: number for (count,), number in found.items() if setting.least <= count <= setting.greatest})
            return
    limits = ["-ci%d" % setting.least, "-cx%d" % setting.greatest, "-cs%d" % setting.cap]
    merging.merge(names, limits, children, setting, lambda: folders.made(folders.place_for(setting.directory, setting.out)), None, reader)


def tell(command, setting, asked, names):
    """Tells what was done, once the answer is there."""
    if asked.json:
        report.write_json(asked.json, setting.report.record(
            futoncrane=places.version(), command=command, k=setting.k, strands=notes.APART if setting.forward else notes.JOINED, min=setting.least,
            max=notes.none_of(setting.greatest), cap=notes.none_of(setting.cap), inputs=names or ["-"]))
    if setting.report.doubt:
        report.say(setting.report.doubt, setting.quiet)
    report.say(setting.report.line(), setting.quiet)
