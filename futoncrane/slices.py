"""Counting in slices: the reads are cut once into files of records, a file for each slice; the slices are listed within the limits, some at a
time; and the dumps, which share no word, are merged. kmc_cut, kmc_list and kmc_merge do it."""
import contextlib
import os
import subprocess
import time

from futoncrane import cutting, folders, memory, merging, places, progress, ranges, shared
from futoncrane.children import TEMPORARY, ended, has_ended, held_signals, told
from futoncrane.faults import Fault, Misuse, shown
from futoncrane.memory import human
from futoncrane.output import Lines, LinesOfParts, begun
from futoncrane.programs import fed, judge_memory, judge_silence, name_and_text, name_of
from futoncrane.removing import Remover
from futoncrane.report import say


# seconds between two looks at which listing has ended
PAUSE = 0.01


class Disk:
    """The files of the meantime, as a fault tells of them in the place of an output. Their own folder is gone by then: what is told is
    the one that it stood in."""
    packer, is_direct = None, False

    def __init__(self, path):
        self.path, self.shown = path, shown(os.path.dirname(os.path.dirname(path)))

    def is_closed(self):
        return False

    def why(self):
        room = os.statvfs(os.path.dirname(self.path))
        return ": no space left on its disk" if room.f_bavail * room.f_frsize < 1 << 16 else ""


def cut(found, setting, format_name, slices, prefix, children):
    """Cuts the inputs into files PREFIX.0, PREFIX.1 and so on, which are gone when the command ends, unless they are let go."""
    command = [places.find("kmc_cut"), *shared.words_of_cut(setting, format_name), "-slices%d" % slices, prefix]
    names = cutting.names_of(prefix, slices)
    TEMPORARY.update(names)
    fed(command, found, setting, children, None, step=progress.cutting, disk=Disk(prefix))
    return names


class Listing:
    """The listing of a slice's files, from when this is made: into the output, into an open file, or into what is read of its `stream`. Its watch
    is one of `watches`; `beside` are the programs that share its memory."""

    def __init__(self, names, setting, children, step, watches, output=None, file=None, counters=None, beside=()):
        self.setting, self.children, self.output, self.file, self.beside = setting, children, output, file, beside
        self.parts = merging.Parts(names, children)
        space = memory.addresses(setting.memory, setting.threads) if setting.memory else None
        command = [places.find("kmc_list"), *shared.words_of_list(setting, counters), *self.parts.given]
        sink = output.opened() if output else file if file else subprocess.PIPE
        self.program = children.start(command, space, env=memory.environment(), pass_fds=self.parts.pipes,
                                      stdin=0 if "-" in names else subprocess.DEVNULL, stdout=sink)
        self.stream = self.program.stdout
        self.parts.let_go()
        if output:
            output.let_go()
        self.watch = watches.enter_context(progress.Watch(self.parts, self.program, not setting.quiet, setting.memory, step, beside))

    def finish(self):
        """Waits for its end, and judges how it ended. Answers how many bytes it wrote."""
        status, written = ended(self.program)
        self.watch.waits = True
        if self.program in self.beside:
            self.beside.remove(self.program)
        self.parts.judge()
        if status == 0:
            self.setting.report.step(name_of(self.program))
            self.children.forget(self.program)
            return written
        name, text = name_and_text(self.program, told(self.program))
        judge_memory(name, text, status, self.watch.is_over, self.setting)
        sink = self.output or (Disk(self.file.name) if self.file else None)
        if text == "cannot write":
            raise Fault("%s: it cannot be written%s" % (sink.shown, sink.why()) if sink else "the pipe: it cannot be written")
        judge_silence(name, text, status, sink)
        raise Fault(advised(self.parts.named(text)))


def listed(names, setting, children, step, output):
    """Lists the files of one slice into the output."""
    with contextlib.ExitStack() as watches:
        setting.report.written = Listing(names, setting, children, step, watches, output).finish()


def advised(text):
    """The fault of a file of slices, with what to do about it."""
    if text.endswith(("cannot be opened", "stands twice")):
        return text
    return text + ("; the file is damaged: make it again by futoncrane cut" if ": behind frame " in text or ": bin " in text else "")


def takes_parts(reader):
    """Whether the dumps of slices may be read one after the other, as they come, in place of their merge."""
    return getattr(reader, "takes_parts", False)


class Work:
    """A count in slices. Its folder is gone when it ends, unless it is to be kept for a later run."""

    def __init__(self, setting, found, format_name, sizes, plan, children):
        self.setting, self.found, self.format, self.children = setting, found, format_name, children
        self.sizes, self.slices, self.at_once, self.programs, self.kept = sizes, plan.slices, 1, [], None
        self.remover, self.lines = Remover(), {}
        self.shares = cutting.many_for(found, sizes[0], setting)
        self.directory = folders.place_for(setting.directory, setting.out)
        if setting.keep and setting.directory is None:
            raise Misuse("--keep wants a --directory")

    def begin(self, memory_of_one_run, files, dumps):
        """Says what is done, looks at the disk's room, which is that of the files of records and of dumps, if these are kept, and makes the
        folder."""
        disk = files + (dumps or 0)
        is_told = any(it.is_stream for it in self.found)
        one_run = "one run would take %s of memory; " % human(memory_of_one_run) if not self.setting.slices and not is_told else ""
        size = "1.1 bytes for each symbol" if is_told else "about %s" % human(disk)
        if self.setting.keep and self._note() is not None:
            self.kept = folders.Kept(self.directory)
            self.path = self.kept.path
        if self._is_cut():
            say("%d slices stand in %s, and are listed" % (self.slices, shown(self.path)), self.setting.quiet)
            return
        folders.check_room(self.directory, disk)
        say("%s%s; files in %s take %s%s" % (
            one_run, "one slice" if self.slices == 1 else "%d slices" % self.slices, shown(self.directory), size,
            ", and the dumps of slices" if dumps is not None else ""), self.setting.quiet)
        if not self.kept:
            self.path = folders.made(self.directory)

    def count(self, output, reader=None):
        """The three steps. The dump goes to the output, or to `reader`: one that `takes_parts` is given the dump of each slice by itself, and
        then none lies on the disk."""
        if not self._is_cut():
            self._cut()
        self.at_once = self._fitting()
        if takes_parts(reader):
            self._read_parts(reader)
        else:
            self._merge(output, reader)
        if not self.kept:
            self.remover.remove(self.path)
        if reader:
            self._wait()

    def _merge(self, output, reader):
        """Lists the slices, and merges their dumps."""
        for it in self._listings(range(self.slices) if not self.kept else [it for it in range(self.slices) if not os.path.exists(self._dump(it))]):
            self._finish(it)
        dumps = [self._dump(number) for number in range(self.slices)]
        if not reader and ranges.merged(dumps, merging.WHOLE, self.children, self.setting, output):
            output.counted = LinesOfParts(self.lines.values()) if len(self.lines) == self.slices else None
        else:
            merging.merge(dumps, merging.WHOLE, self.children, self.setting, lambda: self.path, output, reader)

    def _read_parts(self, reader):
        """Has `reader` read the dump of each slice while it is listed."""
        written = 0
        for it in self._listings(range(self.slices), is_read=True):
            reader(it.stream)
            written += it.finish() or 0
            self._drop_parts(it.number)
        self.setting.report.written = written

    def drop(self):
        """Removes what is kept, once the answer is there, and waits until what was not kept is gone."""
        if self.kept:
            self.kept.clear()
        self._wait()

    def _wait(self):
        self.remover.end()
        if not self.kept:
            folders.dropped(self.path)

    def _note(self):
        """What the files of slices are of; nothing where that cannot be known again, as of a pipe."""
        if any(it.is_stream for it in self.found):
            return None
        setting = self.setting
        reads = [list(it.identity()) for it in self.found]
        return {"version": places.version(), "reads": reads, "format": self.format, "slices": self.slices, "shares": self.shares,
                "k": setting.k, "signature": setting.signature, "bins": setting.bins}

    def _is_cut(self):
        """Whether an earlier run cut the reads, into as many shares as now or into one."""
        note = self._note() if self.kept else None
        for shares in (self.shares, 1):
            if note is not None and self.kept.has({**note, "shares": shares}):
                self.shares = shares
                return True
        return False

    def _cut(self):
        if self.kept:
            self.kept.clear()
        prefixes = [self._path("share-%d" % number) for number in range(self.shares)]
        if self.shares > 1 and cutting.cut(self.found, self.setting, self.format, self.slices, prefixes, self.children):
            names = [name for prefix in prefixes for name in cutting.names_of(prefix, self.slices)]
        else:
            self.shares = 1
            names = cut(self.found, self.setting, self.format, self.slices, prefixes[0], self.children)
        with held_signals():
            if self.kept:
                self.kept.set(self._note())
                TEMPORARY.difference_update(names)

    def _fitting(self):
        """How many slices fit the memory side by side."""
        setting, (symbols, listed) = self.setting, self.sizes
        sizes = [sum(map(os.path.getsize, self._parts(number))) for number in range(self.slices)]
        if not symbols:  # of what came through a pipe the files tell how much it was
            symbols = memory.symbols_of(sum(sizes), setting.k)
            listed = memory.listed_of(symbols, self.format, setting.k, setting.least)
        room = setting.memory or memory.of_machine()
        return memory.at_once(sizes, symbols, listed, setting.k, shared.cap_of(setting), setting.counters, room, setting.bins or memory.BINS)

    def _path(self, name):
        return os.path.join(self.path, name)

    def _parts(self, number):
        """The files of a slice, one of each share of the reads."""
        return [self._path("share-%d.%d" % (share, number)) for share in range(self.shares)]

    def _drop_parts(self, number):
        self.remover.remove(*self._parts(number))

    def _dump(self, number):
        """The dump of a slice within these limits."""
        setting = self.setting
        return self._path("dump-%d-%d-%d%s.%d" % (setting.least, setting.greatest, setting.cap, "-b" if setting.forward else "", number))

    def _listings(self, numbers, is_read=False):
        """The listings of these slices, of which so many run at once; each is to be finished before the next one is taken. Those that are read
        come in their order, and else whichever has ended."""
        running = []
        with contextlib.ExitStack() as watches:
            for number in numbers:
                running.append(self._begun(number, watches, running, is_read))
                if len(running) == self.at_once:
                    yield self._one_of(running, is_read)
            while running:
                yield self._one_of(running, is_read)

    @staticmethod
    def _one_of(running, is_read):
        """Takes out a listing: the first, or one that has ended. The first of the others is shown from then on."""
        found = running[0] if is_read else None
        while found is None:
            found = next((it for it in running if has_ended(it.program)), None)
            if found is None:
                time.sleep(PAUSE)
        running.remove(found)
        (found if is_read else running[0] if running else found).watch.waits = False
        return found

    def _begun(self, number, watches, running, is_read):
        """The listing of a slice, to a file of its own or to be read; the threads are shared out."""
        file = None
        if not is_read:
            work = self._dump(number) + ".new"
            with held_signals():
                TEMPORARY.add(work)
            file = watches.enter_context(open(work, "wb"))
        counters = -(-self.setting.counters // self.at_once)
        found = Listing(self._parts(number), self.setting, self.children, progress.listing(number, self.slices), watches, None, file, counters, self.programs)
        found.number, found.watch.waits = number, bool(running)
        self.programs.append(found.program)
        return found

    def _finish(self, listing):
        """Waits for the end of a listing: its dump has its name then, and the slice's records are gone, unless they are kept."""
        listing.finish()
        listing.file.flush()
        if self.kept:
            os.fsync(listing.file.fileno())
        listing.file.close()
        with held_signals():
            os.replace(listing.file.name, self._dump(listing.number))
            TEMPORARY.discard(listing.file.name)
            if not self.kept:
                self._drop_parts(listing.number)
        self.lines[listing.number] = begun(Lines(self._dump(listing.number), 0))
