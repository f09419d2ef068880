"""What a terminal is shown while a run works, and the watch over its memory."""
import contextlib
import os
import sys
import threading
import time

from futoncrane.children import held_signals
from futoncrane.memory import human
from futoncrane.report import clock

EVERY = 0.2


def number_of(path, name):
    """A number that a file of /proc has behind a name."""
    try:
        with open(path, encoding="ascii") as lines:
            for line in lines:
                if line.startswith(name):
                    return int(line.split()[1])
    except (OSError, ValueError, IndexError):
        pass
    return 0


def written_by(program):
    return number_of("/proc/%d/io" % program.pid, "wchar:")


def read_by(program):
    return number_of("/proc/%d/io" % program.pid, "rchar:")


def resident(program):
    """The bytes of memory that a program holds now."""
    return 1024 * number_of("/proc/%d/status" % program.pid, "VmRSS:")


def moved(doing, place, total, seconds):
    """How far a step is, in words."""
    rate = place / max(seconds, 0.001)
    if total is None:
        return "%s: %s, %s/s" % (doing, human(place), human(rate))
    left = ", %s left" % clock((total - place) / rate) if place and seconds > 1 else ""
    return "%s: %s of %s (%d %%), %s/s%s" % (doing, human(place), human(total), 100 * place // max(1, total), human(rate), left)


def one_run(place, total, seconds, written):
    """The step that a run of kmc is at, and how far it is."""
    if written:
        return "writing: %s" % human(written)
    if total is None or place < total:
        return moved("reading", place, total, seconds)
    return "counting: all %s read" % human(total)


def cutting(place, total, seconds, written):
    """How far the cutting is."""
    return "%s; %s on the disk" % (moved("cutting", min(place, total or place), total, seconds), human(written))


def listing(number, slices):
    """How the listing of a slice is told."""
    def step(place, total, seconds, written):
        doing = "writing: %s" % human(written) if written else "reading: %s of %s" % (human(min(place, total)), human(total))
        return "slice %d of %d, %s" % (number + 1, slices, doing)
    return step


def merging(place, total, seconds, written):
    """How far a merge is."""
    return moved("merging", place if total is None else min(place, total), total, seconds)


class Watch:
    """Looks at a run while it works. On a terminal it shows the step, but for one that `waits` for another to be over; where a cap is set, a
    program that takes more, with the programs beside it, is ended, and `is_over` tells so."""

    def __init__(self, feed, program, is_shown, cap=None, step=one_run, beside=()):
        self.feed, self.program, self.cap, self.step = feed, program, cap, step
        self.beside, self.waits = beside, False
        self.is_shown = is_shown and sys.stderr.isatty()
        self.is_over, self.begun = False, time.monotonic()
        self.stop = threading.Event()
        self.thread = threading.Thread(target=self._watch, daemon=True)

    def __enter__(self):
        if self.is_shown or self.cap:
            self._show()
            with held_signals():  # the thread holds them back for good: they are the main thread's
                self.thread.start()
        return self

    def __exit__(self, *fault):
        self.stop.set()
        if self.thread.ident:
            self.thread.join()
        if self.is_shown:
            self._line("")

    def _watch(self):
        while not self.stop.wait(EVERY):
            if self.cap and sum(map(resident, {self.program, *self.beside})) > self.cap:
                self.is_over = True
                with contextlib.suppress(OSError):
                    self.program.kill()
            self._show()

    def _show(self):
        if not self.is_shown or self.waits:
            return
        seconds = time.monotonic() - self.begun
        total = self.feed.total()
        place = self.feed.place(self.program) or (read_by(self.program) if total is None else 0)
        self._line("%s  %s" % (clock(seconds), self.step(place, total, seconds, written_by(self.program))))

    def _line(self, text):
        try:
            width = os.get_terminal_size(2).columns or 80
        except OSError:
            width = 80
        with contextlib.suppress(OSError):
            os.write(2, ("\r\x1b[K" + text[:width - 1]).encode())

    def say(self, text):
        """A line that stays."""
        if self.is_shown:
            self._line("futoncrane: %s\n" % text)
