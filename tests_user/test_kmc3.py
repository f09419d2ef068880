"""KMC 3 beside futoncrane: what docs/KMC3.md says of both. KMC 3 is Debian's kmc with kmc_tools."""
import json
import random
import re
import shutil
import subprocess

from room import READS, Skipped, content, plainly, program


def need_kmc3():
    if shutil.which("kmc") is None or shutil.which("kmc_tools") is None:
        raise Skipped("KMC 3 is not installed (Debian's package kmc)")


def quiet(room, *words):
    subprocess.run(words, cwd=room.folder, stdout=subprocess.DEVNULL, stderr=subprocess.DEVNULL, check=True)


def database(room, name, reads, *words):
    """A database of KMC 3."""
    quiet(room, "kmc", *words, "-t1", "-m2", "-r", reads, name, room.temporary)


def kmc3_dump(room, name, *words):
    quiet(room, "kmc_tools", "-t1", "transform", name, "dump", "-s", "theirs", *words)
    return content(room.path("theirs"))


def halves(room):
    lines = content(READS).splitlines(keepends=True)
    room.write("a.fastq", b"".join(lines[:500]))
    room.write("b.fastq", b"".join(lines[300:]))


def test_what_one_types_there_and_here(room):
    need_kmc3()
    for it in ("kmc_merge", "kmc_db"):
        program(it)
    halves(room)
    for name in "ab":
        database(room, name, name + ".fastq", "-k21", "-fq", "-ci1", "-cs100000")
        room.counts(b"", "count", "-k21", "-ci1", "--cap", "none", "-o", name + ".dump", name + ".fastq")
        assert kmc3_dump(room, name) == content(room.path(name + ".dump"))
    quiet(room, "kmc_tools", "-t1", "transform", "a", "histogram", "theirs", "-ci1", "-cx100")
    rows = b"".join(line + b"\n" for line in content(room.path("theirs")).splitlines() if not line.endswith(b"\t0"))
    room.counts(rows, "histogram", "a.dump")
    for operation, words in (("intersect", ["compare", "--common"]), ("kmers_subtract", ["compare", "--first"])):
        quiet(room, "kmc_tools", "-t1", "simple", "a", "b", operation, "c")
        ran = room.run(*words, "a.dump", "b.dump")
        theirs = kmc3_dump(room, "c")
        assert ran.status == 0 and theirs and [it.split()[0] for it in ran.out.splitlines()] == [it.split()[0] for it in theirs.splitlines()], operation
    for operation, words in (("intersect", ["intersect"]), ("union", ["union"]), ("kmers_subtract", ["subtract"]), ("counters_subtract", ["subtract", "--counts"])):
        quiet(room, "kmc_tools", "-t1", "simple", "a", "b", operation, "c")
        room.counts(kmc3_dump(room, "c"), *words, "a.dump", "b.dump")
    for choice in ("min", "max", "sum", "diff", "left", "right"):
        for operation in ("intersect", "union"):
            quiet(room, "kmc_tools", "-t1", "simple", "a", "b", operation, "c", "-oc" + choice, "-ci1")
            room.counts(kmc3_dump(room, "c"), operation, "--count", choice, "a.dump", "b.dump")
    quiet(room, "kmc_tools", "-t1", "simple", "a", "b", "union", "c", "-ocsum")
    room.counts(kmc3_dump(room, "c"), "merge", "--min", "1", "--cap", "none", "a.dump", "b.dump")
    quiet(room, "kmc_tools", "-t1", "transform", "a", "reduce", "c", "-ci5")
    room.counts(kmc3_dump(room, "c"), "merge", "--min", "5", "--cap", "none", "a.dump")


def test_the_totals_are_kmc_3s(room):
    need_kmc3()
    for k in ("21", "40"):
        ran = subprocess.run(["kmc", "-k" + k, "-fq", "-ci3", "-t1", "-m2", "-r", READS, "a", room.temporary], cwd=room.folder, stdout=subprocess.PIPE,
                             stderr=subprocess.DEVNULL, check=True)
        theirs = dict(re.findall(r"^ *(\S[^:\n]*\S) *: +([0-9]+)$", ran.stdout.decode(), re.M))
        assert room.run("histogram", "-k", k, "--json", "did.json", READS).status == 0
        all_of_them = json.loads(content(room.path("did.json")))["totals"]
        assert room.run("count", "-k", k, "--min", "3", "-o", "out", "--json", "did.json", READS).status == 0
        listed = json.loads(content(room.path("did.json")))["totals"]["listed"]
        assert room.run("count", "-k", k, "--min", "1", "-o", "out", "--json", "did.json", READS).status == 0
        distinct = json.loads(content(room.path("did.json")))["totals"]["distinct"]
        wanted = [int(theirs[it]) for it in ("Total no. of k-mers", "No. of unique k-mers", "No. of unique counted k-mers")]
        assert [all_of_them["kmers_read"], all_of_them["distinct"], listed] == wanted and distinct == all_of_them["distinct"], (theirs, all_of_them, listed)


def test_options_of_kmc_are_taken_or_told(room):
    room.write("list", READS + "\n")
    room.counts(plainly(content(READS), 31, 3, 9, 7), "count", "-k31", "-ci3", "-cx9", "-cs7", "-t2", "-m1G", "@list")
    room.counts(plainly(content(READS), 31, 3, 9, 7), "count", "-k31", "-ci3", "-cx9", "-cs7", "-t", "2", "--files", "list")
    room.refuses(1, "empty: it names no file", words=["count", "@" + room.write("empty", b"\n")])
    room.refuses(1, "none: No such file", words=["count", "--files", "none"])
    for word, told in (("-okff", "no KFF is written"), ("-okmc", "-o NAME.kmc writes a database"), ("-fkmc", "NAME.kmc"), ("-fbam", "BAM is seen"), ("-j", "--json"), ("-r", "--memory"),
                       ("-w", "no such mode"), ("-hp", "--quiet"), ("-oout", "-o FILE"), ("-m12", "12G?"), ("--cap5", "no option --cap5")):
        room.refuses(2, told, words=["count", word, READS])


def test_limits_above_the_cap_judge_true_counts_here_alone(room):
    need_kmc3()
    database(room, "a", READS, "-k25", "-fq", "-ci8", "-cs5")
    assert kmc3_dump(room, "a") == b""
    wanted = plainly(content(READS), 25, 8, cap=5)
    assert wanted
    room.counts(wanted, "count", "-k25", "--min", "8", "--cap", "5", READS)


def test_the_row_that_kmc_3_leaves_out(room):
    need_kmc3()
    if b"ver. 3.2.1 " not in subprocess.run(["kmc"], stdout=subprocess.PIPE).stdout:
        raise Skipped("it is another version of KMC 3 than 3.2.1")
    source = random.Random(5)
    for k in (25, 30, 31, 32, 33, 63, 64):
        # three k-mers, each in three reads
        reads = ["".join(source.choices("ACGT", k=k)) for _ in range(3)]
        text = "".join("@r\n%s\n+\n%s\n" % (it, "I" * k) for it in reads * 3).encode()
        database(room, "a", room.write("reads", text), "-k%d" % k, "-fq", "-ci1", "-cx3")
        theirs, wanted = kmc3_dump(room, "a"), plainly(text, k, 1, 3)
        assert wanted.count(b"\t3\n") == 3, wanted
        room.counts(wanted, "count", "-k", str(k), "--min", "1", "--max", "3", "reads")
        lost = 1 if k % 32 in (0, 31) else 0
        assert theirs.count(b"\n") == 3 - lost and set(theirs.splitlines()) <= set(wanted.splitlines()), (k, theirs)
