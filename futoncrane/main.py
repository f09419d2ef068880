"""The words behind `futoncrane`: which command they name, and the status that it ends with."""
import importlib
import os

from futoncrane import options, places
from futoncrane.children import catch_signals, sweep, too_late
from futoncrane.faults import Ended, Fault, Misuse, Quiet, reason
from futoncrane.output import say

COMMANDS = {
    "count": "counts the k-mers of files of reads",
    "cut": "cuts reads into the records of slices, which are counted apart",
    "list": "the dump of one slice",
    "merge": "the dump of all, from those of slices or of parts",
    "histogram": "how many k-mers have which count, with a picture",
    "size": "a genome's size from that histogram",
    "compare": "the k-mers that two dumps share",
    "union": "the k-mers of either of two dumps",
    "intersect": "the k-mers of both of two dumps",
    "subtract": "the k-mers of one dump that another one lacks",
    "table": "how many k-mers have which counts in two dumps",
    "query": "the counts of given words in a dump",
    "solid": "the k-mers within limits, as FASTA",
    "genomescope": "the histogram as GenomeScope reads it",
    "cluster": "counts on several machines",
    "doctor": "what is installed, and whether it works",
}


def overview():
    """The help of the whole."""
    lines = ["usage: futoncrane COMMAND [option ..] [FILE ..]", "", "Counts the k-mers of sequencing reads, by programs whose answer is proved.", ""]
    lines += ["  %-12s %s" % it for it in COMMANDS.items()]
    lines += ["", "  --help       this text; futoncrane COMMAND --help tells of one command", "  --version    the version", "",
              "examples:", "  futoncrane count -k 31 -o dump.txt reads.fastq.gz", "  futoncrane histogram -k 21 reads.fastq.gz", "",
              "The status is 0 where all went well, 1 after a fault, and 2 where the words are wrong."]
    return "\n".join(lines)


def obey(words):
    """Does what the words ask for, and gives the status."""
    if not words:
        raise Misuse("no command is given")
    name, rest = words[0], words[1:]
    if name in ("--help", "-h", "help"):
        say(overview())
        return 0
    if name == "--version":
        say("futoncrane " + places.version())
        return 0
    if name not in COMMANDS:
        raise Misuse("no command %s%s" % (name, options.nearest(name, [*COMMANDS, "--help", "--version"])))
    command = importlib.import_module("futoncrane.commands." + name)
    asked = options.parse(rest, command.OPTIONS)
    if asked.help:
        say(options.help_of(name, command))
        return 0
    return command.main(asked)


def tell(text):
    """Writes a line of a fault, if standard error is there."""
    try:
        os.write(2, ("futoncrane: %s\n" % text).encode(errors="backslashreplace"))
    except OSError:
        pass


def answered(words):
    """Does what the words ask for, tells its fault, and gives the status."""
    try:
        status = obey(words)
        too_late()
        return status
    except Misuse as fault:
        name = words[0] + " " if words and words[0] in COMMANDS else ""
        tell("%s (see futoncrane %s--help)" % (fault, name))
        return 2
    except Fault as fault:
        tell(fault)
    except Quiet:
        pass
    except OSError as fault:
        tell("%s%s" % (fault.filename + ": " if isinstance(fault.filename, str) else "", reason(fault)))
    except MemoryError:
        tell("out of memory")
    except Exception as fault:  # what is not foreseen is a line too
        if os.environ.get("FUTONCRANE_DEBUG"):
            raise
        tell("something went wrong that was not foreseen (%s: %s): FUTONCRANE_DEBUG=1 shows where" % (type(fault).__name__, fault))
    return 1


def main(words, beside):
    """The status of the command line's words; `beside` is the folder of the command as it was called."""
    places.BESIDE.insert(0, beside)
    try:
        catch_signals()
        status = answered(words)
        too_late()
    except Ended as fault:  # all later signals are passed over
        status = 128 + fault.number
    sweep()
    return status
