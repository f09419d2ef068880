"""The programs that are fed reads, and what their faults mean for the user."""
import re
import subprocess

from futoncrane import memory, packing, places
from futoncrane.children import ended, signal_of, told
from futoncrane.faults import Fault, Quiet
from futoncrane.feeding import BLOCK, Feed, GaveUp
from futoncrane.progress import Watch, one_run


def fed(command, found, setting, children, output, reader=None, text=None, step=one_run, disk=None):
    """Feeds the inputs to a program that runs within the cap, and judges how it ended. What it writes goes to the output or the reader, but for
    an output that it makes by itself; one that writes files does so on the disk `disk`."""
    feed = Feed(found)
    space = memory.addresses(setting.memory, setting.threads) if setting.memory else None
    sink = subprocess.PIPE if reader else output.opened() if output and not output.is_direct else subprocess.DEVNULL
    program = children.start(command, space, env=memory.environment(), stdin=feed.source, stdout=sink)
    feed.close_source()
    if output:
        output.let_go()
        output.follow()
    with Watch(feed, program, not setting.quiet, setting.memory, step) as watch:
        if text:
            watch.say(text)
        try:
            feed.give(children)
        except GaveUp:
            pass  # its status tells why
        feed.close()
        if reader:
            reader(program.stdout)
        status, written = ended(program)
    if status:
        judge(program, watch, found, setting, output or disk)
    setting.report.step(name_of(program))
    setting.report.written = written
    children.forget(program)


def judge(program, watch, found, setting, output):
    """Tells why a program has not done its work."""
    said, status = told(program), program.returncode
    name, text = name_and_text(program, said)
    judge_memory(name, text, status, watch.is_over, setting)
    line = re.fullmatch(r"line ([0-9]+): (.*)", text)
    if line and found:
        raise Fault(where(int(line[1]), found) + line[2])
    if output and output.is_direct:
        output.judge_files(text)
    if text.endswith((": cannot be written", "cannot write", "write failed")):
        raise Fault("%s: it cannot be written%s" % (output.shown if output else "the pipe", output.why() if output else ""))
    if ": cannot be made" in text and output:
        raise Fault("%s: a file cannot be made there" % output.shown)
    judge_silence(name, text, status, output)
    raise Fault(text)


def judge_silence(name, text, status, output):
    """Tells of a program that ended without a word. It may do so where nobody reads what it writes."""
    if text:
        return
    if output and output.packer:
        output.let_go()
        output.judge_packer()  # tells why it read no more
    if status == 1 and (output is None or output.is_closed()):
        raise Quiet
    raise Fault("%s ended with status %d and told nothing: 'futoncrane doctor' tries it" % (name, status))


def name_of(program):
    """The name that a program has here, whatever it is called where it is installed."""
    own = program.args[0].rpartition("/")[2]
    return next((it for it, installed in places.INSTALLED.items() if own in (it, installed)), own)


def name_and_text(program, said):
    """The name of a program as it tells it, and its fault."""
    name, colon, text = said.partition(": ")
    if colon and name in places.INSTALLED:
        return name, text
    return name_of(program), said


def judge_memory(name, text, status, is_over, setting):
    """The faults of a program that got too little memory, or that something ended."""
    ways = "give a higher --memory, fewer --threads, a greater --min or more --slices"
    if is_over:
        raise Fault("out of memory: %s took more than --memory %s; %s" % (name, memory.human(setting.memory), ways))
    if text == "out of memory" or text.endswith(": out of memory"):
        why = "%s got no more within --memory %s" % (name, memory.human(setting.memory)) if setting.memory else "the system gives %s no more" % name
        raise Fault("out of memory: %s; %s" % (why, ways))
    if status < 0:
        raise Fault("%s %s%s" % (name, signal_of(status), ": the system may have had no memory left" if status == -9 else ""))


def lines_of(it):
    """How many lines an input has as it is fed, with the line feed behind it."""
    descriptor, count, last = it.open(), 0, b"\n"
    try:
        if it.packing:
            command = packing.unpacker(it.packing, it.shown)
            child = subprocess.Popen(command, stdin=descriptor, stdout=subprocess.PIPE, stderr=subprocess.DEVNULL)
            source = child.stdout
        else:
            source = open(descriptor, "rb", closefd=False)
            source.seek(it.start)
        for block in iter(lambda: source.read(BLOCK), b""):
            count += block.count(b"\n")
            last = block[-1:]
        if it.packing:
            child.wait()
    finally:
        it.close(descriptor)
    return count + 1 if it.packing or last != b"\n" else count


def where(line, found):
    """The place of a line that kmc counted from the first input on: 'reads.fastq: line 7: '."""
    before = 0
    for number, it in enumerate(found):
        if number + 1 < len(found) and it.is_stream:
            return "%s and what follows: line %d: " % (it.shown, line - before)
        count = line - before if number + 1 == len(found) else lines_of(it)
        if line - before <= count:
            earlier = found[number - 1].shown
            cut = " (or %s ends within a record)" % earlier if number and line - before <= 2 and it.format != "FASTA" else ""
            return "%s: line %d%s: " % (it.shown, line - before, cut)
        before += count
    return "line %d: " % line
