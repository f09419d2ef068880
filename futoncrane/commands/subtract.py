"""futoncrane subtract: the k-mers of one dump that another one lacks."""
from futoncrane import joining
from futoncrane.options import Option

USAGE = "[option ..] FIRST.dump SECOND.dump"
TEXT = """
Writes the dump of the k-mers of the first dump that the second does not list, with their counts. With --counts a k-mer of both stays with its
first count less the second, where that is above 0.
""" + joining.TEXT
OPTIONS = [
    Option(["--counts"], "counts", default=False, text="takes the counts of the second dump from those of the first, and not its k-mers"),
    *joining.OPTIONS,
]
EXAMPLES = ["futoncrane subtract -o new.dump child.dump mother.dump", "futoncrane subtract --counts -o left.dump all.dump some.dump"]


def main(asked):
    return joining.join("subtract", "counters-subtract" if asked.counts else "subtract", asked)
