"""The lines of a dump, block by block: a k-mer, a tab and its count, in the order of the k-mers."""
import operator
import re

from futoncrane.faults import Fault

BLOCK = 1 << 20
LETTERS = b"ACGT"
MOST_LETTERS = 64


def blocks(stream):
    """The text of a stream in blocks of whole lines; the last line may lack its line feed."""
    rest = b""
    for block in iter(lambda: stream.read(BLOCK), b""):
        lines, feed, rest_of_it = block.rpartition(b"\n")
        if feed:
            yield rest + lines + feed
            rest = rest_of_it
        else:
            rest += block
    if rest:
        yield rest


class Lines:
    """Takes the blocks of a dump, one after the other, and refuses the first line that is none of a dump, by its number. `k` is none before
    the first block."""

    def __init__(self, name):
        self.name, self.number, self.k, self.last = name, 0, None, b""

    def take(self, block):
        """The k-mers and the counts of a block, as lists of bytes."""
        lines = block.split(b"\n")
        if lines.pop():
            lines.append(b"")  # a last line without its line feed is no line of a dump
        k = self.k = self.k or max(1, lines[0].find(b"\t"))
        words, counts = [line[:k] for line in lines], [line[k + 1:] for line in lines]
        letters = b"".join(words)
        is_good = k <= MOST_LETTERS and len(letters) == k * len(lines) and not letters.translate(None, LETTERS) and all(map(bytes.isdigit, counts))
        is_good = is_good and b"\t0" not in block and all(line[k:k + 1] == b"\t" for line in lines)
        if not is_good or not self.last < words[0] or not all(map(operator.lt, words, words[1:])):
            self._blame(lines)
        self.number, self.last = self.number + len(lines), words[-1]
        return words, counts

    def _blame(self, lines):
        """The fault of the first line that is none of a dump."""
        before = self.last
        for number, line in enumerate(lines, self.number + 1):
            if not re.fullmatch(rb"[ACGT]{1,%d}\t[1-9][0-9]*" % MOST_LETTERS, line):
                break
            word = line.partition(b"\t")[0]
            if len(word) != self.k:
                raise Fault("%s: line %d has a word of another length" % (self.name, number))
            if word <= before:
                raise Fault("%s: line %d: its k-mer does not come after the one before" % (self.name, number))
            before = word
        raise Fault("%s: line %d is no line of a dump" % (self.name, number))
