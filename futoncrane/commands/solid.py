"""futoncrane solid: k-mers within limits, as FASTA."""
from futoncrane import lines as texts, run, shared
from futoncrane.children import Children
from futoncrane.options import Option
from futoncrane.output import text_output

USAGE = "[option ..] [FILE ..]"
TEXT = """
Writes the k-mers within limits as FASTA, for assemblers and correctors, in the order of the letters. A record is '>NUMBER count=COUNT' and
a line with the k-mer. No count is cut off.
"""
OPTIONS = [
    shared.k_option(31), *shared.LIMITS,
    Option(["--jellyfish"], "bare", default=False, text="names each k-mer by its count alone, as 'jellyfish dump' does"),
    *shared.ABOUT_RUNS, shared.OUT,
]
EXAMPLES = ["futoncrane solid -k 31 --min 3 -o solid.fa reads.fastq.gz"]


def main(asked):
    listed = 0

    def pass_on(stream):
        nonlocal listed
        for block in texts.blocks(stream):
            pairs = [line.split(b"\t") for line in block.split(b"\n")[:-1]]
            if asked.bare:
                lines.write(b"".join([b">%b\n%b\n" % (count, word) for word, count in pairs]))
            else:
                lines.write(b"".join([b">%d count=%b\n%b\n" % (number, count, word) for number, (word, count) in enumerate(pairs, listed + 1)]))
            listed += len(pairs)

    setting = shared.settings(asked)
    with Children() as children, text_output(asked.out, children, setting.threads, "FASTA") as lines:
        run.read(asked.files, asked.out, setting, children, pass_on)
    setting.report.totals["listed"] = listed
    run.tell("solid", setting, asked, asked.files)
    return 0
