"""Alignments: BAM, CRAM and SAM are taken as files, by samtools; and programs that are others than they should be."""
import bz2
import gzip
import os
import shutil
import subprocess
import sys

from room import READS, TOP, Skipped, content, need, plainly, wanted_dump

# two mates, a read of the other strand, which is given back as it was read, and a second alignment, which is left out
SAM = b"@HD\tVN:1.6\n@SQ\tSN:c\tLN:100\n" + b"".join(
    b"%b\t%d\tc\t%d\t60\t8M\t*\t0\t0\t%b\tIIIIIIII\n" % it for it in (
        (b"a", 99, 1, b"AACCGGTA"), (b"a", 147, 9, b"TTTTCCCA"), (b"b", 16, 20, b"ACGTACCA"), (b"b", 256, 30, b"CCCCCCCC")))
# the reads in it, by hand
READ = (b"AACCGGTA", b"TGGGAAAA", b"TGGTACGT")


def fastq(reads):
    return b"".join(b"@r\n%b\n+\n%b\n" % (it, b"I" * len(it)) for it in reads)


def made(room, kind):
    """The example as BAM or CRAM."""
    need("samtools")
    name = "reads." + kind.lower()
    ran = subprocess.run(["samtools", "import", "-0", READS, "-O", kind, "-o", name], cwd=room.folder, stderr=subprocess.DEVNULL)
    if ran.returncode:
        raise Skipped("this samtools makes no %s of FASTQ" % kind)
    return name


def test_bam_cram_and_sam_are_counted(room):
    for kind in ("BAM", "CRAM", "SAM"):
        name = made(room, kind)
        room.counts(wanted_dump(), "count", "-k25", name)
        room.counts(wanted_dump(), "count", "-k25", "-", text=content(room.path(name)))
    # their names tell nothing, and several stand beside plain files
    shutil.copy(room.path("reads.bam"), room.path("reads"))
    room.counts(plainly(content(READS) * 3, 25), "count", "-k25", "reads", READS, "reads.cram")


def test_records_of_sam_are_reads(room):
    need("samtools")
    for name, text in (("a.sam", SAM), ("bare.sam", b"".join(SAM.splitlines(keepends=True)[2:]).replace(b"\tc\t", b"\t*\t"))):
        room.write(name, text)
        room.counts(plainly(fastq(READ), 5, 1), "count", "-k5", "--min", "1", name)


def test_packed_sam_is_read_or_told(room):
    need("samtools")
    room.write("a.sam.gz", gzip.compress(SAM))
    room.counts(plainly(fastq(READ), 5, 1), "count", "-k5", "--min", "1", "a.sam.gz")
    room.write("a.sam.bz2", bz2.compress(SAM))
    room.refuses(1, "a.sam.bz2: it is an alignment packed by bzip2", "unpack it first", words=["count", "a.sam.bz2"])


def test_alignments_that_end_early_are_refused(room):
    for kind in ("BAM", "CRAM"):
        whole = content(room.path(made(room, kind)))
        # BAM without the block that ends it is whole but for that
        for rest in (28, len(whole) // 2):
            room.write("cut", whole[:-rest])
            room.refuses(1, "cut: the %s data ends early, is damaged or cannot be read" % kind, words=["count", "cut", "-o", "out"])


def test_samtools_that_is_missing_is_told(room):
    name = made(room, "BAM")
    room.environment["PATH"] = room.temporary
    room.refuses(1, name + ": it is a BAM file, and samtools, which reads it, is not installed", words=["count", name])


def test_no_help_names_a_pipe_that_hides_a_fault(room):
    texts = [content(os.path.join(TOP, *it)).decode() for it in (("README.md",), ("docs", "futoncrane.1"), ("docs", "KMC3.md"))]
    texts += [room.run(name, "--help").out.decode() for name in ("count", "histogram", "size", "cluster")]
    for text in texts:
        for line in text.splitlines():
            assert "| futoncrane" not in line or "pipefail" in line, line


def test_another_program_of_the_name_is_refused(room):
    theirs = shutil.which("kmc")
    if theirs is None or shutil.which("kmc_tools") is None:
        raise Skipped("KMC 3 is not installed (Debian's package kmc)")
    os.mkdir(room.path("bin"))
    os.symlink(theirs, room.path("bin/kmc"))
    room.environment["FUTONCRANE_BIN"] = room.path("bin")
    for command, out in (("count", "out"), ("solid", "out.fa")):
        room.refuses(1, "bin/kmc: it is not the program kmc of futoncrane", "KMC 3", "FUTONCRANE_BIN", words=[command, READS, "-o", out])
    for words in (["histogram"], ["size"], ["count", "-o", "db.kmc"]):  # these take another program
        room.refuses(1, "the program kmc_db is not there", "FUTONCRANE_BIN", words=[*words, READS])
    ran = room.run("doctor")
    assert ran.status == 1 and b"kmc          MISSING: " in ran.out and ran.err == "" and b"Traceback" not in ran.out, ran


def test_a_program_that_does_not_run_is_told(room):
    os.mkdir(room.path("bin"))
    for text, told in ((b"\x7fELFnothing", "it cannot be run"), (b"#!/bin/sh\nexit 0\n", "it is not the program kmc")):
        room.write("bin/kmc", text)
        os.chmod(room.path("bin/kmc"), 0o755)
        room.environment["FUTONCRANE_BIN"] = room.path("bin")
        room.refuses(1, "bin/kmc: ", told, words=["count", READS, "-o", "out"])


def test_what_is_not_foreseen_is_one_line(room):
    script = ("import sys; sys.argv = ['futoncrane', 'count', 'a']; sys.path.insert(0, %r)\n"
              "from futoncrane import main, run\nimport futoncrane.commands.count as count\n"
              "def wrong(asked):\n    raise KeyError('unheard of')\ncount.main = wrong\n"
              "sys.exit(main.main(['count', 'a'], '.'))\n")
    for debug in ("", "1"):
        ran = subprocess.run([sys.executable, "-S", "-c", script % TOP], env=dict(room.environment, FUTONCRANE_DEBUG=debug), stderr=subprocess.PIPE)
        told = ran.stderr.decode()
        assert ran.returncode == 1, ran
        assert ("Traceback" in told) == bool(debug) and (debug or told == "futoncrane: something went wrong that was not foreseen (KeyError: 'unheard of'): "
                                                         "FUTONCRANE_DEBUG=1 shows where\n"), told


def test_a_program_that_ends_without_a_word_is_told(room):
    for name in ("kmc", "kmc_db"):
        room.stand_in("#!/bin/sh\ncat > /dev/null\nexit 3\n", name)
    for words in (["count", READS], ["count", READS, "-o", "out"]):
        room.refuses(1, "kmc ended with status 3 and told nothing", "doctor", words=words)
    room.refuses(1, "kmc_db ended with status 3 and told nothing", "doctor", words=["histogram", READS])
    room.stand_in("#!/bin/sh\ncat > /dev/null\nexit 1\n")
    room.refuses(1, "kmc ended with status 1 and told nothing", words=["count", READS, "-o", "out"])
