"""futoncrane size: a genome's size from the histogram of its reads' k-mers."""
import sys

from futoncrane import picture, report, run, shared, sizes
from futoncrane.children import Children
from futoncrane.commands.histogram import numbers_of
from futoncrane.faults import Fault, Misuse, reason, shown
from futoncrane.options import MOST, Option, number
from futoncrane.output import Output, text_output

USAGE = "[option ..] [FILE ..]"
TEXT = """
Estimates a genome's size from the histogram of its reads' k-mers, and writes what it finds, one name, a tab and a value a line: size = sum
of count * number from the valley on / count at the peak.

The valley is the least count whose number is below the next one's: lesser counts are taken for errors of reading. The peak is the count
with most k-mers from the valley on: each place of the genome stands in about so many reads' k-mers. Look at the picture: in a genome with
two unlike copies of each chromosome the peak at half the depth can be the greater one; give the other by --peak. The estimate is of one
copy.

Source: Li and Waterman, Genome Research 13 (2003) 1916-1922, doi 10.1101/gr.1251803.
"""
OPTIONS = [
    shared.k_option(21),
    Option(["--peak"], "peak", "COUNT", number(1, MOST), text="the count at the peak, where the one that is found is not the genome's"),
    Option(["--histogram"], "histogram", "FILE", text="reads a histogram in place of reads (- is standard input)"),
    Option(["--png"], "png", "FILE", text="draws the histogram with the peak into this file (needs gnuplot)"),
    Option(["--text"], "text", default=False, text="draws it with characters on standard error, which a terminal is shown in any case"),
    *shared.ABOUT_RUNS, shared.OUT,
]
EXAMPLES = ["futoncrane size -k 21 reads_1.fastq.gz reads_2.fastq.gz", "futoncrane size --histogram histogram.txt --peak 42"]


def read_histogram(name):
    """The histogram in a file."""
    try:
        with open(0 if name == "-" else name, "rb", closefd=name != "-") as stream:
            return sizes.read(stream, shown(name))
    except OSError as fault:
        raise Fault("%s: %s" % (shown(name), reason(fault))) from None


def main(asked):
    if asked.histogram and asked.files:
        raise Misuse("--histogram takes the place of the files of reads")
    setting = shared.settings(asked)
    with Children() as children:
        numbers = numbers_in(asked, setting, children)
        if not numbers:
            raise Fault("there is no size: %s" % (setting.report.doubt or "%s has no count" % shown(asked.histogram or "the dump")))
        found = sizes.size_of(numbers, asked.peak)
        if asked.png:
            with Output(asked.png, children, is_last=False, form="PNG") as output:
                picture.draw(numbers, children, output, picture.heading(setting, asked.files or [asked.histogram or "-"]), found)
        with text_output(asked.out, children, setting.threads) as lines:
            for name, value in zip(("valley", "peak", "k-mers read", "k-mers taken for errors", "size"), found):
                lines.write(b"%s\t%d\n" % (name.encode(), value))
        if asked.text or (sys.stderr.isatty() and not asked.quiet):
            print(picture.in_characters(numbers, found.valley, found.peak), file=sys.stderr)
    if not asked.peak:
        for it in sizes.others(numbers, found):
            report.say(it, asked.quiet)
    run.tell("size", setting, asked, asked.files)
    return 0


def numbers_in(asked, setting, children):
    """The histogram: that of a file, or of the reads."""
    if not asked.histogram:
        return numbers_of(asked, setting, children)
    numbers = read_histogram(asked.histogram)
    setting.report.take(numbers)
    setting.k = None
    return numbers
