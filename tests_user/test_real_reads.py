"""Reads that Debian's packages bring, against KMC 3, Jellyfish and their histograms. KMC 3 is Debian's kmc with kmc_tools."""
import gzip
import os
import shutil
import subprocess

from room import MOST, Skipped, content, need, program

BOWTIE2, KALLISTO = "/usr/share/doc/bowtie2/examples/", "/usr/share/doc/kallisto/test/"
# files of one format that belong together
READS = ((BOWTIE2 + "reads/reads_1.fq.gz", BOWTIE2 + "reads/reads_2.fq.gz"), (BOWTIE2 + "reads/longreads.fq.gz",),
         (KALLISTO + "reads_1.fastq.gz", KALLISTO + "reads_2.fastq.gz"), (KALLISTO + "sc_reads_1.fastq.gz", KALLISTO + "sc_reads_2.fastq.gz"))
SEQUENCES = ((BOWTIE2 + "reference/lambda_virus.fa.gz",), (KALLISTO + "transcripts.fasta.gz",))


def packages(places=READS):
    """The sets of files that are installed."""
    found = [it for it in places if all(map(os.path.exists, it))]
    if not found:
        raise Skipped("no example reads are installed (Debian's packages bowtie2-examples, kallisto-examples)")
    return found


def quiet(room, *words):
    subprocess.run(words, cwd=room.folder, stdout=subprocess.DEVNULL, stderr=subprocess.DEVNULL, check=True)


def kmc3(room, k, names, kind="-fq", least=2):
    """The dump of KMC 3, its limits as ours."""
    kmc = shutil.which("kmc")
    if kmc is None or shutil.which("kmc_tools") is None:
        raise Skipped("KMC 3 is not installed (Debian's package kmc)")
    room.write("list", "\n".join(names))
    quiet(room, kmc, "-k%d" % k, kind, "-ci%d" % least, "-cx1000000000", "-cs255", "-t2", "-m2", "@list", "base", room.temporary)
    quiet(room, "kmc_tools", "-t2", "transform", "base", "dump", "-s", "theirs")
    return content(room.path("theirs"))


def test_the_dump_is_kmc_3s(room):
    for names in packages():
        for k in (21, 31):
            wanted = kmc3(room, k, names)
            assert wanted.count(b"\n") > 1000
            room.counts(wanted, "count", "-k", str(k), *names)


def test_the_dump_of_slices_is_kmc_3s(room):
    for it in ("kmc_cut", "kmc_list", "kmc_merge"):
        program(it)
    for names in packages():
        wanted = kmc3(room, 27, names)
        for slices in ("2", "7"):
            room.counts(wanted, "count", "-k27", "--slices", slices, "--quiet", *names)
        # the files cut apart, and listed together
        for number, name in enumerate(names):
            room.counts(b"", "cut", "-k27", "--slices", "2", "--force", "-o", "part%d" % number, name)
        for it in range(2):
            room.counts(b"", "list", "-o", "dump.%d" % it, *("part%d.%d" % (number, it) for number in range(len(names))))
        room.counts(wanted, "merge", "--min", "1", "--cap", "none", "dump.0", "dump.1")


def test_the_dump_of_sequences_is_kmc_3s(room):
    for names in packages(SEQUENCES):
        for k in (13, 40):
            wanted = kmc3(room, k, names, "-fm", 1)
            assert wanted.count(b"\n") > 1000
            room.counts(wanted, "count", "-k", str(k), "--min", "1", *names)
            room.counts(wanted, "count", "-k", str(k), "--min", "1", "--slices", "3", "--quiet", *names)


def unpacked(room, names):
    """The files as plain ones, for Jellyfish."""
    plain = []
    for number, name in enumerate(names):
        plain.append(room.write("plain%d" % number, gzip.decompress(content(name))))
    return plain


def test_the_histogram_is_jellyfishs(room):
    need("jellyfish")
    for names in packages():
        quiet(room, "jellyfish", "count", "-m", "21", "-C", "-s", "4M", "-o", "counted.jf", *unpacked(room, names))
        ran = subprocess.run(["jellyfish", "histo", "-h", "1000000", "counted.jf"], cwd=room.folder, stdout=subprocess.PIPE, check=True)
        room.counts(ran.stdout.replace(b" ", b"\t"), "histogram", "-k", "21", *names)
        ran = subprocess.run(["jellyfish", "histo", "-f", "-h", "9999", "counted.jf"], cwd=room.folder, stdout=subprocess.PIPE, check=True)
        room.counts(ran.stdout.partition(b"\n")[2], "genomescope", "-k", "21", *names)


def test_solid_kmers_are_jellyfishs(room):
    need("jellyfish")
    names = packages()[0]
    quiet(room, "jellyfish", "count", "-m", "21", "-C", "-s", "4M", "-o", "counted.jf", *unpacked(room, names))
    ran = subprocess.run(["jellyfish", "dump", "-L", "3", "counted.jf"], cwd=room.folder, stdout=subprocess.PIPE, check=True)
    ours = room.run("solid", "-k", "21", "--min", "3", "--jellyfish", *names)
    assert ours.status == 0 and pairs(ours.out) == pairs(ran.stdout) and ours.out


def pairs(text):
    lines = text.splitlines()
    return sorted(zip(lines[1::2], lines[::2]))


def test_reads_of_a_genome_with_its_size(room):
    place = BOWTIE2 + "reference/lambda_virus.fa.gz"
    if not os.path.exists(place):
        raise Skipped("no example genome is installed (Debian's package bowtie2-examples)")
    ran = room.run("count", "-k31", "--min", "1", "--cap", "none", "--max", str(MOST), place)
    symbols = sum(len(line) for line in gzip.decompress(content(place)).splitlines() if not line.startswith(b">"))
    words = sum(int(line.split()[1]) for line in ran.out.splitlines())
    assert ran.status == 0 and words == symbols - 30, (words, symbols)
