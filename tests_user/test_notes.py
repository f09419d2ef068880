"""The note beside a dump: what it says, and what is refused by it."""
import gzip
import json
import os

from room import MOST, READS, content, plainly, program, wanted_dump

WHOLE = ("--min", "1", "--max", "none", "--cap", "none")


def halves(room):
    """The example in two files cut between records."""
    lines = content(READS).splitlines(keepends=True)
    room.write("a.fastq", b"".join(lines[:400]))
    room.write("b.fastq", b"".join(lines[400:]))


def note(room, name):
    return json.loads(content(room.path(name + ".json")))


def dump(room, out, *words):
    """A dump with its note, of these words."""
    ran = room.run("count", *words, "-o", out)
    assert ran.status == 0, ran


def test_a_note_says_what_the_dump_was_made_with(room):
    dump(room, "one.dump", "-k25", READS)
    one = note(room, "one.dump")
    assert [one[it] for it in ("k", "strands", "min", "max", "cap", "inputs")] == [25, "joined", 2, None, 255, [READS]], one
    assert one["futoncrane"] == content(os.path.join(os.path.dirname(READS), "..", "VERSION")).decode().strip(), one
    assert one["totals"]["listed"] == wanted_dump().count(b"\n") and one["bytes"] == len(wanted_dump()), one
    dump(room, "other.dump.gz", "-k", "12", "--forward", "--min", "3", "--max", "9", "--cap", "none", READS)
    other = note(room, "other.dump.gz")
    assert [other[it] for it in ("k", "strands", "min", "max", "cap")] == [12, "apart", 3, 9, None], other
    assert other["totals"]["listed"] == plainly(content(READS), 12, 3, 9, MOST, "apart").count(b"\n"), other
    room.counts(wanted_dump(), "count", "-k25", "-o", "/dev/stdout", READS)
    assert not os.path.exists("/dev/stdout.json")


def test_a_file_that_is_no_note_stays(room):
    room.write("one.json", b'{"mine": 1}')
    ran = room.run("count", "-k25", "-o", "one", READS)
    assert ran.status == 0 and "one.json is no note of a dump and stays as it is" in ran.err and content(room.path("one.json")) == b'{"mine": 1}', ran


def test_names_that_would_be_written_twice_are_refused(room):
    room.write("reads", content(READS))
    for words in (["-o", "dump", "--json", "dump.json"], ["-o", "dump", "--json", "dump"]):
        room.refuses(2, "-o writes there too", words=["count", *words, "reads"])
    room.refuses(2, "reads: it is read", words=["count", "--json", "reads", "reads"])
    os.symlink("reads", room.path("picture.png"))
    room.refuses(2, "picture.png: it is read", words=["histogram", "--png", "picture.png", "reads"])
    assert content(room.path("reads")) == content(READS)


def test_a_note_of_another_dump_is_not_believed(room):
    program("kmc_merge")
    dump(room, "one.dump", "-k25", READS)
    room.write("one.dump", b"ACGT\t3\n")
    room.write("two.dump", b"ACGT\t4\n")
    ran = room.run("merge", "one.dump", "two.dump")
    assert ran.status == 0 and ran.out == b"ACGT\t7\n" and "one.dump, two.dump: no note (DUMP.json)" in ran.err, ran


def test_parts_with_limits_are_not_summed(room):
    program("kmc_merge")
    halves(room)
    for name in "ab":
        dump(room, name + ".dump", "-k25", name + ".fastq")
    room.refuses(1, "a.dump was counted with --min 2 --max none --cap 255", "count it again with --min 1 --max none --cap none",
                 words=["merge", "a.dump", "b.dump", "-o", "out"])
    for limits in (("--min", "1"), ("--min", "1", "--cap", "none", "--max", "9"), ("--cap", "none")):
        dump(room, "b.dump", "-k25", *limits, "b.fastq")
        dump(room, "a.dump", "-k25", *WHOLE, "a.fastq")
        room.refuses(1, "b.dump was counted with ", words=["merge", "a.dump", "b.dump", "-o", "out"])
        room.refuses(1, "b.dump was counted with ", words=["histogram", "a.dump", "b.dump", "-o", "out"])
    # beside a dump without a note too
    room.write("other.dump", content(room.path("a.dump")))
    room.refuses(1, "b.dump was counted with ", words=["merge", "b.dump", "other.dump", "-o", "out"])
    # one dump alone may be limited further, and keeps its own limits
    room.counts(b"", "merge", "--min", "1", "-o", "again", "b.dump")
    assert (note(room, "again")["min"], note(room, "again")["cap"]) == (2, 255), note(room, "again")
    dump(room, "b.dump", "-k25", *WHOLE, "b.fastq")
    room.counts(b"", "merge", "a.dump", "b.dump", "-o", "out")
    assert content(room.path("out")) == wanted_dump()
    both = note(room, "out")
    assert [both[it] for it in ("k", "strands", "min", "max", "cap", "inputs")] == [25, "joined", 2, None, 255, ["a.fastq", "b.fastq"]], both
    # without their notes there is a line
    os.remove(room.path("a.dump.json"))
    os.remove(room.path("b.dump.json"))
    ran = room.run("merge", "a.dump", "b.dump", "-o", "out")
    assert ran.status == 0 and ran.err.startswith("futoncrane: a.dump, b.dump: no note (DUMP.json) tells") and ran.err.count("\n") == 2, ran
    assert not os.path.exists(room.path("out.json")) and content(room.path("out")) == wanted_dump()
    ran = room.run("merge", "--quiet", "a.dump", "b.dump")
    assert (ran.out, ran.err) == (wanted_dump(), ""), ran


def test_strands_and_lengths_that_are_unlike_are_refused(room):
    halves(room)
    dump(room, "joined", "-k25", *WHOLE, "a.fastq")
    dump(room, "apart", "-k25", "--forward", *WHOLE, "b.fastq")
    dump(room, "shorter", "-k21", *WHOLE, "b.fastq")
    for command, done in (("merge", "summed"), ("compare", "compared"), ("histogram", "summed")):
        room.refuses(1, "joined was counted with strands joined, and apart with --forward: they cannot be " + done, words=[command, "joined", "apart", "-o", "out"])
        room.refuses(1, "joined was counted with -k 25, and shorter with -k 21", words=[command, "joined", "shorter"])


def test_compare_tells_of_unlike_limits(room):
    dump(room, "two", "-k25", READS)
    dump(room, "five", "-k25", "--min", "5", READS)
    ran = room.run("compare", "two", "five")
    assert ran.status == 0 and ran.err.count("\n") == 1 and "two was counted with --min 2" in ran.err and "five with --min 5" in ran.err, ran
    assert room.run("compare", "--quiet", "two", "five").err == ""
    assert room.run("compare", "two", "two").err == ""


def slices(room, prefix, text, number, *limits, lister=()):
    """The dumps of all slices of a text."""
    room.counts(b"", "cut", "-k25", "--slices", str(number), "--force", "-o", prefix, room.write(prefix + ".fastq", text))
    names = ["%s.%d.dump" % (prefix, it) for it in range(number)]
    for it, name in enumerate(names):
        room.counts(b"", "list", *limits, "-o", name, "%s.%d" % (prefix, it))
    return names


def test_slices_are_joined_by_their_notes(room):
    for it in ("kmc_cut", "kmc_list", "kmc_merge"):
        program(it)
    names = slices(room, "all", content(READS), 3, "--min", "3")
    assert note(room, names[1])["slices"] == {"of": 3, "numbers": [1], "parts": 1}
    room.counts(plainly(content(READS), 25, 3), "merge", "--min", "1", "--cap", "none", *names)
    room.counts(plainly(content(READS), 25, 5, 9), "merge", "--min", "5", "--max", "9", *names)
    room.counts(plainly(content(READS), 25, 3), "merge", *names)
    # one is missing, one stands for two, one is of other limits
    ran = room.run("merge", "-o", "some", names[0], names[2])
    assert ran.status == 0 and "of 3 slices these are missing: 1;" in ran.err, ran
    room.counts(plainly(content(READS), 25, 3), "merge", "some", names[1])
    room.refuses(1, "count it again", words=["merge", "some", names[0]])
    room.counts(b"", "list", "--min", "4", "-o", names[1], "all.1")
    room.refuses(1, "all.0.dump was listed with --min 3", "all.1.dump with --min 4", "no slices of one dump", words=["merge", *names])
    dump(room, "whole", "-k25", "--min", "3", READS)
    room.refuses(1, "some and whole are not of the same slices", words=["compare", "some", "whole"])


def test_slices_of_unlike_parts_are_refused(room):
    for it in ("kmc_cut", "kmc_list", "kmc_merge"):
        program(it)
    halves(room)
    for it in "ab":
        room.counts(b"", "cut", "-k25", "--slices", "2", "-o", it, it + ".fastq")
    room.counts(b"", "list", "-o", "0.dump", "a.0", "b.0")
    room.counts(b"", "list", "-o", "1.dump", "a.1")
    room.refuses(1, "0.dump was listed from 2 files of parts, and 1.dump from 1", words=["merge", "0.dump", "1.dump"])
    room.counts(b"", "list", "-o", "1.dump", "a.1", "b.1")
    room.counts(wanted_dump(), "merge", "0.dump", "1.dump")
    # a slice whose parts were listed apart, and summed
    for it in "ab":
        room.counts(b"", "list", *WHOLE, "-o", it + "0.dump", it + ".0")
    room.counts(b"", "merge", *WHOLE, "-o", "0.dump", "a0.dump", "b0.dump", told="futoncrane: of 2 slices these are missing: 1; the dump lacks their k-mers\n")
    room.counts(b"", "list", *WHOLE, "-o", "1.dump", "a.1", "b.1")
    room.counts(wanted_dump(), "merge", "0.dump", "1.dump")


def test_limits_are_not_judged_by_capped_counts(room):
    program("kmc_merge")
    room.write("many", content(READS) * 20)
    dump(room, "capped", "-k25", "--cap", "50", "many")
    room.refuses(1, "capped shows no count above 50", "--min 60", words=["merge", "--min", "60", "capped"])
    room.refuses(1, "capped shows no count above 50", "--max 60", words=["merge", "--max", "60", "capped"])
    room.counts(plainly(content(READS) * 20, 25, 40, cap=50), "merge", "--min", "40", "capped")


def test_a_dump_is_read_in_place_of_reads(room):
    program("kmc_merge")
    dump(room, "whole", "-k21", *WHOLE, READS)
    dump(room, "whole.gz", "-k21", *WHOLE, READS)
    for command in ("histogram", "size", "genomescope"):
        wanted = room.run(command, "-k21", READS)
        assert wanted.status == 0 and wanted.out
        room.counts(wanted.out, command, "whole")
        room.counts(wanted.out, command, "whole.gz")
    room.counts(room.run("solid", "-k21", "--min", "4", READS).out, "solid", "--min", "4", "whole")
    dump(room, "part", "-k21", READS)
    ran = room.run("histogram", "part", "--json", "did.json")
    assert ran.status == 0 and "part was counted with --min 2 --max none --cap 255: the answer lacks what these leave out" in ran.err, ran
    totals = json.loads(content(room.path("did.json")))["totals"]
    assert totals["kmers_read"] is None and totals["distinct"] is None and totals["listed"] == content(room.path("part")).count(b"\n"), totals
    room.refuses(1, "whole is a dump of k-mers, and", words=["histogram", "whole", READS])
    room.refuses(1, "whole is a dump of k-mers and has no reads", words=["count", "whole", "-o", "out"])
    room.refuses(1, "taken from a file", words=["histogram", "-"], text=content(room.path("whole")))
    room.write("wrong", b"ACGT\t3\nAAAA\t2\n")
    room.refuses(1, "wrong: line 2 ", words=["histogram", "wrong"])
    assert gzip.decompress(content(room.path("whole.gz"))) == content(room.path("whole"))
