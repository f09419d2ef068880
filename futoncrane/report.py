"""What a run tells at its end: in a line on standard error, and as JSON for scripts."""
import contextlib
import json
import os
import resource
import sys
import time

from futoncrane.faults import Fault, reason, shown
from futoncrane.memory import human

# what may be known of the reads and their k-mers; what is not known is none
TOTALS = ("reads", "symbols", "kmers_read", "distinct", "met_once", "max_count", "listed")
TOLD = (("kmers_read", "k-mers read"), ("distinct", "distinct"), ("met_once", "met once"), ("listed", "k-mers listed"))


def say(text, quiet):
    """A line on standard error, also where that is no terminal."""
    if not quiet and sys.stderr is not None:
        with contextlib.suppress(OSError):
            os.write(2, ("futoncrane: %s\n" % text).encode(errors="backslashreplace"))


def clock(seconds):
    seconds = int(seconds)
    hours, seconds = divmod(seconds, 3600)
    return "%d:%02d:%02d" % (hours, *divmod(seconds, 60)) if hours else "%d:%02d" % divmod(seconds, 60)


class Report:
    """What is known of a run, and whether anybody is told. `steps` are the programs that worked, `written` the bytes of the answer, none where
    that is not known, `doubt` says what makes it doubtful, if something does, and `is_partial` whether k-mers were left out before."""

    def __init__(self, is_told):
        self.is_told = is_told
        self.begun, self.steps, self.bytes_read, self.written = time.monotonic(), [], None, None
        self.doubt, self.is_partial = None, False
        self.totals = dict.fromkeys(TOTALS)

    def step(self, name):
        """Notes a step; of equal ones in a row there is one."""
        if self.steps[-1:] != [name]:
            self.steps.append(name)

    def take(self, numbers):
        """Takes the totals of a histogram, of all k-mers or of those of a dump that has not all."""
        if self.is_partial:
            self.totals["listed"] = sum(numbers.values())
            return
        self.totals.update(kmers_read=sum(count * number for count, number in numbers.items()), distinct=sum(numbers.values()),
                           met_once=numbers.get(1, 0), max_count=max(numbers, default=0))

    def line(self):
        """The last line of a run."""
        totals = self.totals
        found = ["%s %s" % (format(totals[key], ","), word) for key, word in TOLD if totals[key] is not None]
        read = "%s read, " % human(self.bytes_read) if self.bytes_read is not None else ""
        return "%sdone in %s, at most %s of memory%s" % (read, clock(time.monotonic() - self.begun), human(peak()), ": " + ", ".join(found) if found else "")

    def record(self, **others):
        """All that is known, for JSON."""
        return {**others, "totals": self.totals, "doubt": self.doubt, "bytes_read": self.bytes_read, "seconds": round(time.monotonic() - self.begun, 3),
                "memory_bytes": peak(), "steps": self.steps}


def peak():
    """The most bytes of memory that one program of this run held."""
    return 1024 * resource.getrusage(resource.RUSAGE_CHILDREN).ru_maxrss


def write_json(path, record):
    """Writes a record as JSON into a file, which has its name once it is whole."""
    work = "%s.%d.new" % (path, os.getpid())
    try:
        if os.path.exists(path) and not os.path.isfile(path):
            with open(path, "w", encoding="ascii") as out:
                json.dump(record, out, indent=1)
            return
        with open(work, "w", encoding="ascii") as out:
            json.dump(record, out, indent=1)
            out.write("\n")
        os.replace(work, path)
    except OSError as fault:
        with contextlib.suppress(OSError):
            os.unlink(work)
        raise Fault("%s: %s" % (shown(path), reason(fault))) from None
