"""futoncrane count: k-mers of any number of files."""
from futoncrane import notes, run, shared
from futoncrane.children import Children
from futoncrane.database_output import output_of, words_of_run
from futoncrane.options import Option

USAGE = "[option ..] [FILE ..]"
TEXT = """
Counts the k-mers of the reads in the files, all together. A line of the dump is a k-mer, a tab and its count; the lines are in the order of
the letters.

A file is FASTQ or FASTA, plain or packed by gzip, bzip2, xz or zstd, or BAM, CRAM or SAM, which samtools reads: all is seen from its first
bytes. @LIST names a file that lists files, one a line. - is standard input, which is also read where no file is given.

Beside -o DUMP stands DUMP.json, which tells what the dump was made with: merge and compare refuse what is unlike.

-o NAME.kmc writes a sorted database in place of a text: NAME.kmc_pre and NAME.kmc_suf, which KMC's tools read. Each command that takes a dump
takes it too, as NAME.kmc.

What is estimated to fit the memory is one run of kmc. What is not is counted in slices: the reads are cut once into files of records, which
take about 1.1 bytes of the disk for each symbol; slice after slice is listed; and the dumps are merged. The dump is the same. A line tells
which it is. Of what comes through a pipe nothing is known: give --slices there.

The counting is done by programs whose answer is proved. The status is 0 only where each file was read to its end and the dump was written
whole.
"""
KEEP = Option(["--keep"], "keep", default=False, text="leaves the files of slices in --directory where the run does not come to its end, and "
              "goes on with those that an earlier run over the same files left there")
OPTIONS = [shared.k_option(31), *shared.LIMITS, shared.CAP, *shared.ABOUT_RUNS, KEEP, shared.OUT_DUMP]
EXAMPLES = [
    "futoncrane count -k 21 -o dump.txt reads_1.fastq.gz reads_2.fastq.gz",
    "futoncrane count --min 1 --max none --cap none -o genome.dump.gz genome.fa",
    "futoncrane count --memory 12G --directory /scratch -o human.dump human_*.fastq.gz",
    "futoncrane count -o dump.txt reads.bam",
    "futoncrane count -k 31 --min 1 -o reads.kmc reads.fastq.gz",
    "futoncrane count -o dump.txt --files lanes.txt",
]


def main(asked):
    setting = shared.settings(asked)
    with Children() as children, output_of(asked, setting, children, words_of_run(setting)) as output:
        work = run.run(run.open_inputs(asked.files, asked.out), setting, children, output)
        notes.finish(output, notes.of_run(setting, asked.files or ["-"]), setting.report, setting.quiet)
        if work:
            work.drop()
    run.tell("count", setting, asked, asked.files)
    return 0
