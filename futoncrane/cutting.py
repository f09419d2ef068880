"""Reads cut into files of records by several programs side by side, each a share of the reads; a slice is listed from the files of all shares.

A share ends between records, as far as the lines there tell. Each program takes only text that begins and ends with a record, and so where all
took theirs, the reads of the shares are those of the whole. Where one refuses, one program is given all, and its fault tells the line."""
import contextlib
import os
import subprocess

from futoncrane import memory, parts, places, progress, ranges, shared
from futoncrane.children import TEMPORARY, ended, held_signals
from futoncrane.progress import written_by
from futoncrane.sending import Sender

# so many programs, where the reads have so many bytes for each
MOST_CUTTERS, LEAST_BYTES = 3, 1 << 25


def many_for(found, symbols, setting):
    """How many programs are to cut the inputs: several only of plain files, and where the memory has room for them."""
    if any(it.is_stream or it.packing or it.name == "-" for it in found):
        return 1
    many = min(MOST_CUTTERS, setting.splitters, sum(it.bytes for it in found) // LEAST_BYTES)
    room = setting.memory or memory.of_machine()
    return max(1, many) if many * memory.rounds_of_a_cut(symbols / max(1, many)) <= room else 1


def names_of(prefix, slices):
    return ["%s.%d" % (prefix, number) for number in range(slices)]


def dropped(names):
    """Removes files, of which some may not be there."""
    for it in names:
        with contextlib.suppress(OSError):
            os.unlink(it)


class Cutter:
    """A program that cuts a share of the reads into files PREFIX.0, PREFIX.1 and so on, which are gone when the command ends."""

    def __init__(self, words, pieces, prefix, slices, setting, children):
        self.names, self.children = names_of(prefix, slices), children
        with held_signals():
            TEMPORARY.update(self.names)
        self.sender = Sender(pieces, ends_lines=True)
        space = memory.addresses(setting.memory, setting.threads) if setting.memory else None
        self.program = children.start([*words, prefix], space, env=memory.environment(), stdin=self.sender.source, stdout=subprocess.DEVNULL)
        self.sender.begin()

    def is_done(self):
        """Waits for the end of the program, and tells whether it did its work, on its whole share."""
        status, _ = ended(self.program)
        self.children.forget(self.program)
        return self.sender.is_whole() and status == 0


def told_of(cutters):
    """How far the cutting is, by all programs."""
    def step(place, total, seconds, written):
        return progress.cutting(place, total, seconds, sum(written_by(it.program) for it in cutters))
    return step


def cut(found, setting, format_name, slices, prefixes, children):
    """Cuts the inputs by as many programs as there are prefixes. Answers whether that was done; else no file is left."""
    splitters = -(-setting.splitters // len(prefixes))
    words = [places.find("kmc_cut"), *shared.words_of_cut(setting, format_name, splitters), "-slices%d" % slices]
    with contextlib.ExitStack() as files:
        descriptors = [files.enter_context(open(it.name, "rb", buffering=0)).fileno() for it in found]
        sizes = [it.bytes for it in found]
        shares = parts.shares(descriptors, sizes, format_name == "FASTA", len(prefixes))
        if len(shares) < len(prefixes):
            return False
        cutters = [Cutter(words, pieces, prefix, slices, setting, children) for pieces, prefix in zip(shares, prefixes)]
        beside, is_done = [it.program for it in cutters], True
        with progress.Watch(ranges.Progress(cutters, sum(sizes)), beside[0], not setting.quiet, setting.memory, told_of(cutters), beside):
            for it in cutters:
                if not is_done:
                    it.program.kill()
                is_done = it.is_done() and is_done
    if not is_done:
        dropped(name for it in cutters for name in it.names)
        return False
    setting.report.step("kmc_cut")
    return True
