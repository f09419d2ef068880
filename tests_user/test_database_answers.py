"""Answers that are databases, -o NAME.kmc: their files are those of kmc_db pack, and are there whole or not at all."""
import json
import os
import stat
import subprocess

from room import READS, content, need, plainly, program, wanted_dump
from test_databases import packed
from test_notes import WHOLE, halves
from test_writing import small_disk

BOTH = ("db.kmc_pre", "db.kmc_suf")


def files(room, name="db"):
    """The two files of a database."""
    return tuple(content(room.path(name + end)) for end in (".kmc_pre", ".kmc_suf"))


def listed(room, name="db"):
    """The dump of a database, by KMC 3."""
    need("kmc_tools")
    subprocess.run(["kmc_tools", "-t1", "transform", name, "dump", "-s", "theirs"], cwd=room.folder, stdout=subprocess.DEVNULL, stderr=subprocess.DEVNULL, check=True)
    return content(room.path("theirs"))


def test_a_count_is_written_as_a_database(room):
    program("kmc_db")
    for k, words, limits in ((25, [], (2,)), (12, ["--min", "3", "--max", "9", "--cap", "7"], (3, 9, 7)), (31, ["--min", "1", "--cap", "none"], (1,)),
                             (4, ["--forward", "--min", "1", "--cap", "1000"], (1, 1 << 63, 1000, "apart"))):
        room.counts(b"", "count", "-k", str(k), *words, "-o", "db.kmc", READS)
        wanted = plainly(content(READS), k, *limits)
        least, greatest, cap = (*limits, 1 << 63, 255)[:3] if len(limits) > 1 else (limits[0], 1 << 63, 1 << 63 if "none" in words else 255)
        told = ["-k%d" % k, "-ci%d" % least, "-cx%d" % greatest, "-cs%d" % cap, *(["-b"] if "apart" in limits else [])]
        assert files(room) == packed(room, "ours", wanted, *told, "--force"), k
        assert listed(room) == wanted, k
    assert not os.path.exists(room.path("db.kmc")) and stat.S_IMODE(os.stat(room.path("db.kmc_suf")).st_mode) == 0o666 & ~0o022


def test_slices_are_written_as_a_database(room):
    for it in ("kmc_cut", "kmc_list", "kmc_merge", "kmc_db"):
        program(it)
    room.counts(b"", "count", "-k25", "--quiet", "--slices", "3", "-o", "db.kmc", READS)
    assert files(room) == packed(room, "ours", wanted_dump(), "-k25", "-ci2", "-cx%d" % (1 << 63), "-cs255")
    room.counts(b"", "cut", "-k25", "--slices", "2", "-o", "part", READS)
    for it in "01":
        room.counts(b"", "list", "-o", "slice%s.kmc" % it, "part." + it)
    slices = [listed(room, "slice" + it).splitlines() for it in "01"]
    assert all(slices) and sorted(slices[0] + slices[1]) == wanted_dump().splitlines()
    room.counts(wanted_dump(), "merge", "slice0.kmc", "slice1.kmc")


def test_no_text_is_written_for_a_database(room):
    room.stand_in("#!/bin/sh\n'%s' \"$@\" || exit\nls -a . .futoncrane-*/ > listed\n" % program("kmc_db"), "kmc_db")
    room.counts(b"", "count", "-k25", "-o", "db.kmc", READS)
    names = set(content(room.path("listed")).decode().split())
    assert {"made.kmc_pre", "made.kmc_suf"} < names and not [it for it in names if it.startswith("db") or "dump" in it], names
    assert listed(room) == wanted_dump()


def test_a_database_has_a_note(room):
    program("kmc_db")
    room.counts(b"", "count", "-k25", "-o", "db.kmc", READS)
    note = json.loads(content(room.path("db.kmc.json")))
    assert [note[it] for it in ("k", "strands", "min", "max", "cap", "inputs")] == [25, "joined", 2, None, 255, [READS]], note
    assert note["totals"]["listed"] == wanted_dump().count(b"\n") and note["steps"] == ["kmc_db"], note
    room.write("db.kmc.json", b'{"mine": 1}')
    assert "is no note of a dump and stays" in room.run("count", "-k25", "-o", "db.kmc", READS).err and content(room.path("db.kmc.json")) == b'{"mine": 1}'


def test_joins_and_merges_are_written_as_databases(room):
    for it in ("kmc_merge", "kmc_db"):
        program(it)
    halves(room)
    for it in "ab":
        room.counts(b"", "count", "-k25", *WHOLE, "-o", it + ".dump", it + ".fastq")
    for name, words in (("all", ["merge"]), ("either", ["union", "--cap", "300"]), ("both", ["intersect"]), ("one", ["subtract"]),
                        ("less", ["subtract", "--counts"])):
        wanted = room.run(*words, "a.dump", "b.dump").out
        room.counts(b"", *words, "-o", name + ".kmc", "a.dump", "b.dump")
        assert wanted and listed(room, name) == wanted, name
    assert content(room.path("all.kmc_pre"))[-72:-68] == b"\x19\0\0\0" and os.path.exists(room.path("all.kmc.json"))
    # of no k-mer a dump tells no length: the notes do
    room.counts(b"", "merge", *WHOLE, "-o", "a.dump.gz", "a.dump")
    room.counts(b"", "subtract", "-o", "none.kmc", "a.dump", "a.dump.gz")
    assert files(room, "none")[1] == b"KMCSKMCS"
    # strands that are apart are told in the header
    room.counts(b"", "count", "-k25", "--forward", *WHOLE, "-o", "f.dump", "a.fastq")
    room.counts(b"", "merge", "-o", "f.kmc", "f.dump")
    assert content(room.path("f.kmc_pre"))[-40] == 1 and content(room.path("all.kmc_pre"))[-40] == 0


def test_an_older_database_stays_after_a_fault(room):
    program("kmc_db")
    room.counts(b"", "count", "-k25", "-o", "db.kmc", READS)
    older = files(room)
    os.chmod(room.path("db.kmc_suf"), 0o640)
    room.write("bad", b"@r\nAC\n+\nI\n")
    room.refuses(1, "bad: line 4", words=["count", "bad", "-o", "db.kmc"])
    assert files(room) == older
    room.counts(b"", "count", "-k21", "-o", "db.kmc", READS)
    assert listed(room) == plainly(content(READS), 21) and stat.S_IMODE(os.stat(room.path("db.kmc_suf")).st_mode) == 0o640


def test_a_database_that_cannot_be_written_is_told(room):
    program("kmc_db")
    room.refuses(1, "none: No such file", words=["count", READS, "-o", "none/db.kmc"])
    os.mkdir(room.path("db.kmc_suf"))
    room.refuses(1, "db.kmc_suf: it is a folder", words=["count", READS, "-o", "db.kmc"])
    os.symlink("/dev/null", room.path("null.kmc_pre"))
    room.refuses(1, "null.kmc_pre: it is no file", words=["count", READS, "-o", "null.kmc"])
    room.refuses(2, "x.kmc_pre: a database has two files: name it x.kmc", words=["count", READS, "-o", "x.kmc_pre"])
    room.refuses(2, "x.kmc.gz: a database is not written here", words=["count", READS, "-o", "x.kmc.gz"])
    room.refuses(2, "x.kmc: a database is not written here", words=["histogram", READS, "-o", "x.kmc"])
    room.refuses(2, "db.kmc_pre: -o writes there too", words=["count", READS, "-o", "db.kmc", "--json", "db.kmc_pre"])
    room.refuses(2, "db.kmc.json: -o writes there too", words=["count", READS, "-o", "db.kmc", "--json", "db.kmc.json"])
    with small_disk(room, 1 << 14):
        ran = room.run("count", "--min", "1", READS, "-o", "disk/db.kmc")
        assert ran.status == 1 and ran.err.count("\n") == 1 and "disk/db.kmc_" in ran.err and "no space left" in ran.err, ran
        assert os.listdir(room.path("disk")) == []


def test_a_count_that_no_database_holds_is_told(room):
    for it in "ab":
        room.write(it + ".dump", b"ACGT\t4294967295\n")
    room.refuses(1, "db.kmc: ", "--cap 4294967295", words=["merge", "--cap", "none", "-o", "db.kmc", "a.dump", "b.dump"])
    room.counts(b"ACGT\t8589934590\n", "merge", "--cap", "none", "a.dump", "b.dump")
    # of reads that many are too many for a test
    told = "kmc_db: a k-mer occurs more often than the bytes of a count tell"
    room.stand_in("#!/bin/sh\nif [ \"$1\" != count ]; then exec '%s' \"$@\"; fi\necho '%s' >&2\nexit 1\n" % (program("kmc_db"), told), "kmc_db")
    room.refuses(1, "db.kmc: ", "--cap 4294967295", words=["count", "-k4", "--cap", "none", "-o", "db.kmc", READS])


def test_a_program_that_fails_leaves_no_database(room):
    program("kmc_db")
    for end, told in (("exit 3", "%s ended with status 3"), ("kill -KILL $$", "%s was ended by SIGKILL"), ("exit 1", "%s ended with status 1")):
        for out, name in (("db.kmc", "kmc_db"), ("dump.gz", "kmc")):
            room.stand_in("#!/bin/sh\ncat > /dev/null\nprintf 'ACGT\\t1\\n'\n%s\n" % end, name)
            room.refuses(1, told % name, words=["count", "-k4", "-o", out, READS])
            assert not [it for it in os.listdir(room.folder) if it.startswith(".futoncrane")], out
    room.write("a.dump", b"ACGT\t1\n")
    room.write("b.dump", b"CCGT\t1\n")
    for end, told in (("kill -KILL $$", "kmc_db was ended by SIGKILL"), ("echo 'kmc_db: out of memory' >&2; exit 1", "db.kmc: out of memory"), ("exit 3", "kmc_db ended with status 3")):
        room.stand_in("#!/bin/sh\ncat > /dev/null\n%s\n" % end, "kmc_db")
        if not os.path.lexists(room.path("bin/kmc_merge")):
            os.symlink(program("kmc_merge"), room.path("bin/kmc_merge"))
        room.refuses(1, told, words=["merge", "-o", "db.kmc", "a.dump", "b.dump"])
        assert not [it for it in os.listdir(room.folder) if it.startswith((".futoncrane", "db."))], told


def test_a_database_is_written_through_links(room):
    program("kmc_db")
    os.mkdir(room.path("far"))
    for it in BOTH:
        room.write("far/" + it, b"older")
        os.symlink("far/" + it, room.path(it))
    room.counts(b"", "count", "-k25", "-o", "db.kmc", READS)
    assert all(os.path.islink(room.path(it)) for it in BOTH) and listed(room, "far/db") == wanted_dump()
