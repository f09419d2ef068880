"""futoncrane genomescope: the histogram as GenomeScope reads it."""
from futoncrane import run, shared
from futoncrane.children import Children
from futoncrane.commands.histogram import numbers_of
from futoncrane.options import Option, number
from futoncrane.output import text_output

USAGE = "[option ..] [FILE ..]"
TEXT = """
Writes the histogram of counts in the form that GenomeScope reads: one line for each count from 1 to that of --top, also where no k-mer has
it: the count, a blank, the number of k-mers. The last line has all k-mers that occur so often or more often.

These are the lines of 'jellyfish histo -f -h 9999' after its first. GenomeScope leaves out the last line.
"""
OPTIONS = [
    shared.k_option(21),
    Option(["--top"], "top", "COUNT", number(1, 10**7), 10000, "the last line's count, 1 to 10000000 (10000)"),
    *shared.ABOUT_RUNS, shared.OUT,
]
EXAMPLES = ["futoncrane genomescope -k 21 -o reads.histo reads_1.fastq.gz reads_2.fastq.gz"]


def main(asked):
    setting = shared.settings(asked)
    with Children() as children:
        numbers = numbers_of(asked, setting, children)
        last = sum(number for count, number in numbers.items() if count >= asked.top)
        with text_output(asked.out, children, setting.threads) as lines:
            for count in range(1, asked.top):
                lines.write(b"%d %d\n" % (count, numbers.get(count, 0)))
            lines.write(b"%d %d\n" % (asked.top, last))
    run.tell("genomescope", setting, asked, asked.files)
    return 0
