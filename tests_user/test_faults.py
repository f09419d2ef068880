"""Faults say what is wrong, with the file, and what to do; and what a run that was killed leaves is removed by the next."""
import bz2
import gzip
import io
import lzma
import os
import re
import shutil
import signal
import subprocess
import tarfile
import time
import zipfile

from room import COMMAND, READS, TOP, content, need, plainly, program, wait_for, wanted_dump
from test_writing import small_disk


def archives():
    """Texts that are no reads, and what is told of each."""
    zipped, tarred = io.BytesIO(), io.BytesIO()
    with zipfile.ZipFile(zipped, "w") as archive:
        archive.writestr("reads.fastq", content(READS))
    with tarfile.open(fileobj=tarred, mode="w") as archive:
        archive.add(READS, "reads.fastq")
    return (("a.zip", zipped.getvalue(), "it is a zip archive: unpack it first"), ("a.tar", tarred.getvalue(), "it is a tar archive: unpack it first"),
            ("a.tar.gz", gzip.compress(tarred.getvalue()), "it is a tar archive: unpack it first"),
            ("a.dump", wanted_dump(), "a.dump is a dump of k-mers and has no reads: histogram"),
            ("a.html", b"<!DOCTYPE html>\n", "no reads"), ("a.vcf", b"##fileformat=VCFv4.2\n", "a VCF file"),
            ("a.txt", b"hello\n", "neither FASTA nor FASTQ: its text begins with 'h'"))


def test_files_that_are_no_reads_are_told_apart(room):
    for name, text, told in archives():
        room.write(name, text)
        room.refuses(1, name, told, words=["count", name, "-o", "out"])
        room.refuses(1, told.replace("a.dump", "standard input"), words=["count", "-", "-o", "out"], text=text)
    room.counts(b"", "cut", "-k25", "--slices", "1", "-o", "slices", READS)
    room.refuses(1, "slices.0: it is a file of slices, which 'futoncrane list' takes", words=["count", "slices.0"])


def test_the_folder_of_cut_is_told(room):
    room.refuses(1, "nowhere: there is no such folder", words=["cut", "--slices", "2", "-o", "nowhere/c", READS])
    room.refuses(1, "none/out: No such file", words=["count", "-o", "none/out", READS])


def test_a_full_disk_of_cut_is_told(room):
    program("kmc_cut")
    with small_disk(room, 1 << 14):
        ran = room.run("cut", "--slices", "2", "-o", "disk/c", READS)
        assert ran.status == 1 and "disk: the slices are estimated to take" in ran.err and "name files on another disk by -o" in ran.err, ran
        assert "--directory" not in ran.err, ran
        with subprocess.Popen(["cat", READS, READS], stdout=subprocess.PIPE) as cat:
            ran = room.run("cut", "--slices", "2", "-o", "disk/c", source=cat.stdout)
        assert ran.status == 1 and ran.err == "futoncrane: %s/disk: it cannot be written: no space left on its disk\n" % room.folder, ran
        assert os.listdir(room.path("disk")) == []


def test_a_disk_too_small_for_the_dumps_is_told(room):
    # the records of the reads would fit, and with the slices' dumps they do not
    room.write("reads", content(READS) * 100)
    from futoncrane import memory
    symbols = len(content(READS)) * 50
    records, dumps = memory.disk(symbols), memory.disk_of_dumps(memory.listed_of(symbols, "FASTQ", 31, 1), 31)
    with small_disk(room, (records + dumps // 2) // 4096 * 4096):
        room.refuses(1, "disk: the slices are estimated to take", words=["count", "--min", "1", "--slices", "2", "--directory", "disk", "reads"])


def test_an_unpacker_is_told_in_short(room):
    packed = {"gz": gzip.compress(content(READS)), "bz2": bz2.compress(content(READS)), "xz": lzma.compress(content(READS))}
    for end, programs in (("gz", ("pigz", "gzip")), ("bz2", ("lbzip2", "bzip2")), ("xz", ("xz",))):
        room.write("cut." + end, packed[end][:3 * len(packed[end]) // 4])
        for it in programs:
            if shutil.which(it) is None:
                continue
            shutil.rmtree(room.path("alone"), ignore_errors=True)
            os.mkdir(room.path("alone"))
            os.symlink(shutil.which(it), room.path("alone/" + it))
            room.environment["PATH"] = room.path("alone")
            ran = room.refuses(1, "cut.%s: the " % end, "data ends early, is damaged or cannot be read (", words=["count", "cut." + end, "-o", "out"])
            assert len(ran.err) < 160 and "recover" not in ran.err, ran


def test_a_damaged_file_of_slices_is_told_what_to_do(room):
    program("kmc_list")
    room.counts(b"", "cut", "-k25", "--slices", "1", "-o", "a", READS)
    whole = content(room.path("a.0"))
    for name, text in (("short", whole[:-30]), ("changed", whole[:2000] + bytes([whole[2000] ^ 1]) + whole[2001:])):
        room.write(name, text)
        room.refuses(1, name + ": behind frame ", "make it again by futoncrane cut", words=["list", name, "-o", "out"])


def test_far_guesses_are_not_told(room):
    for words in (["query"], ["count", "--ploidy", "2", "a"], ["histogram", "--histogram", "a"], ["size", "--genome", "a"]):
        ran = room.refuses(2, "no ", words=words)
        assert "did you mean" not in ran.err, ran


def test_what_a_killed_run_leaves_is_removed(room):
    room.stand_in("#!/bin/sh\nprintf 'ACGT\\t2\\n'; : > begun; exec sleep 10000\n")
    for words in (["count", READS, "-o", "out"], ["count", "--slices", "2", READS, "-o", "out"]):
        for it in ("kmc_cut",):
            room.stand_in("#!/bin/sh\n: > begun; exec sleep 10000\n", it)
        child = subprocess.Popen([*COMMAND, *words], cwd=room.folder, env=room.environment, stderr=subprocess.DEVNULL)
        wait_for(room, "begun")
        left = [it for it in os.listdir(room.folder) if it.startswith(".futoncrane-")]
        assert left
        # while it lives another run leaves it alone
        room.run("merge", room.write("good", b"ACGT\t3\n"), "-o", "other")
        assert set(left) <= set(os.listdir(room.folder))
        child.send_signal(signal.SIGKILL)
        child.wait()
        end = time.monotonic() + 60
        while any(it.startswith(".futoncrane-") for it in os.listdir(room.folder)):
            assert time.monotonic() < end
            environment = dict(room.environment, FUTONCRANE_BIN=os.path.dirname(program("kmc")))
            ran = subprocess.run([*COMMAND, "count", "-k25", READS, "-o", "other"], cwd=room.folder, env=environment, stderr=subprocess.PIPE)
            assert ran.returncode == 0, ran
        os.remove(room.path("begun"))


def test_threads_above_the_most_are_taken_as_the_most(room):
    room.stand_in("#!/bin/sh\necho \"$@\" > words; cat > /dev/null; printf 'ACGT\\t2\\n'\n")
    ran = room.run("count", "-t", "48", READS)
    assert ran.status == 0 and ran.err.startswith("futoncrane: --threads 48 is taken as 16, the most there are\n"), ran
    assert b"-sp16" in content(room.path("words")) and b"-sr16" in content(room.path("words"))
    assert room.run("count", "-t48", "-q", READS).err == ""


def test_answers_are_packed_at_the_first_level(room):
    need("zstd")
    room.counts(b"", "count", "-k25", "-o", "out.zst", READS)
    assert subprocess.run(["zstd", "-dcq", room.path("out.zst")], stdout=subprocess.PIPE).stdout == wanted_dump()
    room.counts(wanted_dump(), "merge", "--min", "1", "out.zst")
    os.mkdir(room.path("path"))
    for it in ("pigz", "zstd"):
        room.write("path/" + it, "#!/bin/sh\necho \"$@\" > words.%s\nexec cat\n" % it)
        os.chmod(room.path("path/" + it), 0o755)
    room.environment["PATH"] = room.path("path") + ":" + room.environment["PATH"]
    room.counts(b"", "count", "-k25", "-t", "2", "-o", "out.gz", READS)
    room.counts(b"", "count", "-k25", "-t", "2", "-o", "out.zst", READS)
    assert content(room.path("words.pigz")) == b"-1 -c -p 2\n" and content(room.path("words.zstd")) == b"-q -1 -c -T2\n"


def test_names_that_promise_another_form_are_refused(room):
    for name in ("x.kff", "x.bz2", "x.kff.gz", "x.jf", "x.bam", "x.fa", "x.json", "x.kmc.gz"):
        room.refuses(2, name, "is not written here", words=["count", READS, "-o", name])
    room.refuses(2, "the picture is a PNG", words=["histogram", "--png", "a.pdf", READS])
    room.counts(b"", "solid", "-o", "x.fa", READS)
    room.counts(b"", "solid", "-o", "x.fa.gz", READS)


def test_the_page_has_the_figures_of_the_estimate(room):
    from futoncrane import memory
    page = " ".join(content(os.path.join(TOP, "docs", "kmc.1")).decode().split())
    least, most = (memory.rounds(it, 25) // memory.MEGA for it in (0, 10**12))
    for told in ("the records take %s for each symbol, %s where k is above %d, and %s from %d to %d" % (
                     memory.BYTES_OF_A_SYMBOL, memory.BYTES_IN_LONG_RUNS, memory.MOST_OF_A_NARROW_KMER, memory.BYTES_IN_SHORT_RUNS, memory.MOST_OF_ONE_BIN + 1,
                     memory.MOST_OF_SHORT_RUNS),
                 "the lists %d for each k-mer that is listed, %d where k is above 32" % (memory.bytes_of_a_line(31, 255), memory.bytes_of_a_line(33, 255)),
                 "cutting the records, and %d to %d million for the rounds" % (least, most),
                 "the first bins the records, a quarter of the lists" if memory.FIRST == 1 / 4 else "?",
                 "the last bins %.2f of the records, the lists, and %d million for each counting thread" % (memory.KEPT, memory.BYTES_OF_A_WRITER // memory.MEGA),
                 "a 60th of a byte for each symbol and thread" if memory.BYTES_OF_A_COUNTED_SYMBOL == 1 / 60 else "?",
                 "at most %d symbols share one bin: there the records take %s for each symbol" % (memory.MOST_OF_ONE_BIN, memory.BYTES_OF_A_PACKED_SYMBOL),
                 "MALLOC_MMAP_THRESHOLD_=%d" % memory.GIVEN_BACK):
        assert told in page, told
    assert "for each symbol" not in content(os.path.join(TOP, "README.md")).decode()


def test_the_lines_of_pages_run(room):
    page = content(os.path.join(TOP, "docs", "kmc.1")).decode()
    line = next(it[len(".Dl "):] for it in page.splitlines() if it.startswith(".Dl kmc -k21 -ci1 -cs10000"))
    room.write("reads.fastq", content(READS))
    os.mkdir(room.path("path"))
    os.symlink(program("kmc"), room.path("path/kmc"))
    environment = dict(room.environment, PATH=room.path("path") + ":" + os.environ["PATH"])
    ran = subprocess.run(["bash", "-euc", line], cwd=room.folder, env=environment, stdout=subprocess.PIPE)
    counts = [int(it.split()[1]) for it in plainly(content(READS), 21, 1, cap=10000).splitlines()]
    assert ran.stdout.decode() == "".join("%d %d\n" % (it, counts.count(it)) for it in sorted(set(counts))), ran
    for name in ("futoncrane", "kmc", "kmc_cut", "kmc_list", "kmc_merge", "kmc_db"):
        text = content(os.path.join(TOP, "docs", name + ".1")).decode().partition(".Sh SEE ALSO")[2]
        others = {"futoncrane", "kmc", "kmc_cut", "kmc_list", "kmc_merge"} - {name}
        cited = set(re.findall(r"^\.(?:Xr|Nm) (?:futoncrane-)?([a-z_-]+)", text, re.M))
        assert others <= {it.replace("-", "_") for it in cited}, (name, cited)


def test_limits_of_nested_groups_are_read(room):
    from futoncrane import memory
    for path, text in (("job/step/memory.max", "max\n"), ("job/memory.max", "3000000000\n"), ("memory.max", "9000000000\n"), ("memory/slurm/job/memory.limit_in_bytes", "500000000\n"),
                       ("memory/memory.limit_in_bytes", "9223372036854771712\n")):
        os.makedirs(os.path.dirname(room.path("cgroup/" + path)), exist_ok=True)
        room.write("cgroup/" + path, text)
    root = room.path("cgroup")
    assert memory.of_groups(["0::/job/step\n"], root) == 3000000000
    assert memory.of_groups(["12:cpu:/other\n", "4:memory:/slurm/job\n", "0::/\n"], root) == 500000000
    assert memory.of_groups(["0::/elsewhere\n"], root) == 9000000000
    assert memory.of_groups(["0::/job/step\n"], room.path("none")) is None
