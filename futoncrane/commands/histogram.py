"""futoncrane histogram: how many k-mers have which count."""
import sys

from futoncrane import dumps, picture, run, shared, sizes
from futoncrane.children import Children
from futoncrane.options import Option
from futoncrane.output import Output, text_output

USAGE = "[option ..] [FILE ..]"
TEXT = """
Writes one line for each count that occurs: the count, a tab, and the number of k-mers that occur so often. Every k-mer is counted, and no
count is cut off; no dump is kept.

A dump is taken in place of reads, or a database as NAME.kmc. The picture ends at the count that 995 of 1000 repeated k-mers do not pass. In
that of --png the valley and the peak are marked with the size that futoncrane size finds; the bars before the valley are cut, so that the
peak is seen.
"""
OPTIONS = [
    shared.k_option(21),
    Option(["--png"], "png", "FILE", text="draws the histogram into this file (needs gnuplot)"),
    Option(["--text"], "text", default=False, text="draws it with characters on standard error"),
    *shared.ABOUT_RUNS, shared.OUT,
]
EXAMPLES = ["futoncrane histogram -k 21 --png histogram.png reads_1.fastq.gz reads_2.fastq.gz > histogram.txt"]


def numbers_of(asked, setting, children):
    """The number of k-mers of each count in the reads of the files, or in dumps."""
    found = dumps.Histogram(children, setting.threads)
    run.read(asked.files, asked.out, setting, children, found)
    setting.report.step("kmc_db")
    numbers = found.numbers()
    setting.report.take(numbers)
    return numbers


def main(asked):
    setting = shared.settings(asked)
    with Children() as children:
        numbers = numbers_of(asked, setting, children)
        if asked.png:
            with Output(asked.png, children, is_last=False, form="PNG") as output:
                found = sizes.size_of(numbers) if sizes.valley_of(numbers) else None
                picture.draw(numbers, children, output, picture.heading(setting, asked.files), found)
        with text_output(asked.out, children, setting.threads) as lines:
            lines.writelines(b"%d\t%d\n" % it for it in numbers.items())
        if asked.text:
            print(picture.in_characters(numbers), file=sys.stderr)
    run.tell("histogram", setting, asked, asked.files)
    return 0
