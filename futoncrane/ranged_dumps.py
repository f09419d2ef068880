"""A plain dump by ranges of k-mers: a range begins and ends where a line of it begins. What ranges ask of a dump, ranged_databases has for a
database too."""
import os

from futoncrane.sending import Sender

# no line of a dump is longer, with the line feed
LONGEST_LINE = 64 + 22


def line_from(file, place):
    """Where the first line begins that begins at this place or behind it, and its k-mer; of no line the k-mer is empty."""
    text = os.pread(file, 2 * LONGEST_LINE, max(0, place - 1))
    start = place if place == 0 else place + text.index(b"\n") if b"\n" in text else place - 1 + len(text)
    line = text[start - max(0, place - 1):]
    return start, line.partition(b"\t")[0]


def first_from(file, size, word):
    """Where the first line begins whose k-mer is this one or behind it. Of a k-mer its first letters are enough."""
    low, high = 0, size
    while low < high:
        middle = (low + high) // 2
        start, found = line_from(file, middle)
        if found and found < word:
            low = start + 1
        else:
            high = middle
    return line_from(file, low)[0]


class Part:
    """What a program is given of an operand: through a pipe, whose end it takes as `source`. It reads so many `bytes`."""

    def __init__(self, size):
        self.bytes, self.sender = size, None

    @property
    def source(self):
        return self.sender.source

    def begin(self):
        """Begins to pass it on, once the program has its end of the pipe."""
        self.sender.begin()

    def is_taken(self):
        """Waits until the pipe is closed, and tells whether all was passed on."""
        return self.sender.is_whole()

    def drop(self):
        """Removes what was made for the program, which has ended or was not begun."""
        if self.sender:
            self.sender.drop()


class DumpPart(Part):
    """The lines of a dump between two places."""

    def __init__(self, file, start, end):
        super().__init__(end - start)
        self.file, self.start, self.end = file, start, end

    def length(self):
        """How many letters its k-mers have, by the first line; none where it has no line."""
        return len(line_from(self.file, self.start)[1]) if self.bytes else None

    def given(self, path):
        """Has it ready for a program, and answers the word that names it there. It takes no file at this path."""
        self.sender = Sender([(self.file, self.start, self.end)])
        return "/dev/fd/%d" % self.source


class RangedDump:
    """A plain dump, open as long as `files` are. It is `size` bytes of lines, and its places go up to `end`. It can be cut at words of any number of
    `letters`, and no `table` of it is written for a range."""
    letters, table = None, 0

    def __init__(self, name, files):
        self.file = files.enter_context(open(name, "rb", buffering=0)).fileno()
        self.size = self.end = os.fstat(self.file).st_size

    def bounds(self, many):
        """The k-mers that part it into so many ranges of about one size."""
        return {line_from(self.file, self.size * number // many)[1] for number in range(1, many)} - {b""}

    def place_of(self, word):
        """Where the first line begins whose k-mer is not below this word."""
        return first_from(self.file, self.size, word)

    def part(self, start, end):
        """What lies between two places."""
        return DumpPart(self.file, start, end)
