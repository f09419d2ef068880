"""Databases in the place of dumps: each command that takes a dump gives the same answer of both, and tells what is wrong with a database."""
import os
import re
import shutil

from room import BIN, READS, content, need, plainly, program, wanted_dump
from test_databases import packed, quietly
from test_notes import WHOLE, halves

NEW_FORM = "'kmc_tools transform theirs sort OUT' makes a database that is read"


def both_forms(room, *words):
    """Dumps a.dump and b.dump with their notes, and databases a.kmc and b.kmc of the same halves of the example."""
    for it in ("kmc_merge", "kmc_db"):
        program(it)
    halves(room)
    for it in "ab":
        room.counts(b"", "count", "-k21", *WHOLE, *words, "-o", it + ".dump", it + ".fastq")
        room.counts(b"", "count", "-k21", *WHOLE, *words, "-o", it + ".kmc", it + ".fastq")


def test_each_command_reads_databases(room):
    both_forms(room)
    for words in (["merge", "--min", "3"], ["union"], ["union", "--count", "max"], ["intersect"], ["subtract"], ["subtract", "--counts"], ["table"], ["compare"],
                  ["compare", "--common"], ["compare", "--first"], ["compare", "--second"], ["compare", "--same"], ["compare", "--assembly"], ["histogram"], ["size"],
                  ["genomescope", "--top", "30"], ["solid", "--min", "4"]):
        wanted = room.run(*words, "a.dump", "b.dump")
        assert wanted.status == 0 and wanted.out, wanted
        for first, second in (("a.kmc", "b.kmc"), ("a.dump", "b.kmc_pre"), ("a.kmc_suf", "b.dump")):
            ran = room.run(*words, first, second)
            assert (ran.status, ran.out) == (0, wanted.out), (words, first, ran)
            assert "no note" not in ran.err, ran


def test_a_database_of_kmc_is_read(room):
    program("kmc_merge")
    need("kmc", "kmc_tools")
    os.mkdir(room.path("files"))
    for k, words in ((25, ()), (31, ("-b",))):
        quietly(room, "kmc", "-k%d" % k, "-t1", "-m2", "-r", "-fq", *words, READS, "theirs", "files")
        quietly(room, "kmc_tools", "-t1", "transform", "theirs", "sort", "sorted")
        room.counts(plainly(content(READS), k, 2, 10**9, 255, *(["apart"] if words else [])), "merge", "--min", "1", "sorted.kmc")
        for name in ("theirs.kmc", "theirs.kmc_pre", "theirs.kmc_suf"):
            room.refuses(1, "theirs.kmc_pre: it is in the form of KMC 2 and 3", NEW_FORM, words=["histogram", name])
            room.refuses(1, NEW_FORM, words=["union", "sorted.kmc", name])


def test_a_database_is_no_file_of_reads(room):
    program("kmc_db")
    packed(room, "db", wanted_dump())
    room.refuses(1, "db.kmc is a dump of k-mers and has no reads", words=["count", "db.kmc", "-o", "out"])
    shutil.copy(room.path("db.kmc_suf"), room.path("other"))
    room.refuses(1, "other: it is a file of a database, which is named NAME.kmc_suf", words=["count", "other"])


def test_a_dump_may_be_named_as_a_database(room):
    for it in ("kmc_merge", "kmc_db"):
        program(it)
    room.write("text.kmc", b"ACGT\t3\n")
    room.counts(b"ACGT\t3\n", "merge", "text.kmc")
    packed(room, "text", b"CCGT\t4\n")
    room.counts(b"CCGT\t4\n", "merge", "text.kmc")
    room.refuses(1, "none.kmc_pre: No such file", words=["merge", "none.kmc"])


def test_names_of_one_database_are_one(room):
    program("kmc_db")
    packed(room, "db", wanted_dump())
    room.refuses(2, "db.kmc_suf stands twice, first as db.kmc", words=["merge", "db.kmc", "db.kmc_suf"])
    room.refuses(2, "db.kmc: it is read, and cannot be written", words=["merge", "-o", "db.kmc", "db.kmc_pre"])
    room.refuses(2, "db.kmc_suf: it is read", words=["histogram", "--json", "db.kmc_suf", "db.kmc"])


def test_headers_tell_what_is_unlike(room):
    program("kmc_db")
    packed(room, "joined", b"ACGTA\t3\n", "-ci1")
    packed(room, "apart", b"ACGTA\t3\n", "-ci1", "-b")
    packed(room, "longer", b"ACGTAC\t3\n", "-ci1")
    room.refuses(1, "joined.kmc was counted with strands joined, and apart.kmc with --forward: they cannot be joined", words=["union", "joined.kmc", "apart.kmc"])
    room.refuses(1, "joined.kmc was counted with -k 5, and longer.kmc with -k 6: they cannot be summed", words=["merge", "joined.kmc", "longer.kmc"])
    ran = room.run("merge", "--min", "1", "-o", "sum.kmc", "apart.kmc")
    assert ran.status == 0 and "apart.kmc: no note" in ran.err and content(room.path("sum.kmc_pre"))[-40] == 1, ran


def test_a_damaged_database_is_told(room):
    for it in ("kmc_merge", "kmc_db"):
        program(it)
    packed(room, "good", wanted_dump())
    prefix, suffix = (content(room.path("good" + it)) for it in (".kmc_pre", ".kmc_suf"))

    def refused(told, prefix, suffix):
        room.write("db.kmc_pre", prefix)
        room.write("db.kmc_suf", suffix)
        for words in (["histogram"], ["merge", "-o", "out"], ["compare", "--common", "good.kmc"], ["union", "-o", "out.kmc", "good.kmc"]):
            ran = room.run(*words, "db.kmc")
            lines = [line for line in ran.err.splitlines() if "no note (DUMP.json)" not in line]
            assert ran.status == 1 and len(lines) == 1 and re.match("futoncrane: db.*" + told, lines[0]), (told, words, ran)
            assert not os.path.exists(room.path("out")) and not os.path.exists(room.path("out.kmc_pre"))
    refused("kmc_pre: it does not end as the file of a database does", prefix[:-9], suffix)
    refused("kmc_pre: it does not end", b"", suffix)
    refused("kmc_pre: it has [0-9]+ bytes", prefix[8:], suffix)
    refused("kmc_pre: .* lengths of k-mers", prefix[:-72] + b"\x42" + prefix[-71:], suffix)
    refused("kmc_pre: .* unknown mode", prefix[:-68] + b"\1" + prefix[-67:], suffix)
    refused("kmc_pre: .* unknown version", prefix[:-12] + b"\7" + prefix[-11:], suffix)
    # what stands behind the header is for kmc_db to see
    refused("", prefix, suffix[:-9])
    refused("", prefix, suffix[:len(suffix) // 2])
    refused("", prefix, suffix[:-4] + b"KMCX")
    os.remove(room.path("db.kmc_suf"))
    room.refuses(1, "db.kmc_suf: No such file", words=["merge", "db.kmc"])


def test_a_fault_of_the_program_that_dumps_is_the_fault(room):
    for it in ("kmc_merge", "kmc_db"):
        program(it)
    packed(room, "db", wanted_dump())
    os.mkdir(room.path("bin"))
    os.symlink(os.path.join(BIN, "kmc_merge"), room.path("bin/kmc_merge"))
    real = os.path.join(BIN, "kmc_db")
    for end, told in (("echo 'kmc_db: db.kmc_suf: row 7 has a count of 0' >&2; exit 1", "futoncrane: db.kmc_suf: row 7 has a count of 0"),
                      ("kill -KILL $$", "db.kmc: kmc_db was ended by SIGKILL"), ("exit 3", "db.kmc: kmc_db ended with status 3")):
        for lines in ("printf 'ACGT\\t3\\n'", "printf 'ACGT\\t3\\nCC'"):
            room.stand_in('#!/bin/sh\nif [ "$1" != dump ]; then exec \'%s\' "$@"; fi\n%s\n%s\n' % (real, lines, end), "kmc_db")
            room.write("a", b"ACGT\t1\n")
            for words in (["merge", "-o", "out", "db.kmc"], ["histogram", "db.kmc"], ["compare", "--common", "-o", "out", "a", "db.kmc"]):
                room.refuses(1, told, words=words)


def test_a_fault_of_the_program_that_joins_is_the_fault(room):
    real = program("kmc_db")
    packed(room, "db", wanted_dump())
    room.write("a", b"ACGT\t1\n")
    os.mkdir(room.path("bin"))
    for end, told in (("echo 'kmc_db: db.kmc_suf: row 7 has a count of 0' >&2; exit 1", "futoncrane: db.kmc_suf: row 7 has a count of 0"),
                      ("echo 'kmc_db: db.kmc_pre: line 1: it has another length' >&2; exit 1", "futoncrane: db.kmc: line 1: it has another length"),
                      ("kill -KILL $$", "kmc_db was ended by SIGKILL"), ("exit 3", "kmc_db ended with status 3")):
        room.stand_in('#!/bin/sh\ncase $1 in table | union) ;; *) exec \'%s\' "$@" ;; esac\nprintf \'ACGT\\t3\\n\'\n%s\n' % (real, end), "kmc_db")
        for words in (["table"], ["union"], ["union", "--count", "max"]):
            room.refuses(1, told, words=[*words, "-o", "out", "a", "db.kmc"])


def test_joins_read_a_database_themselves(room):
    real = program("kmc_db")
    packed(room, "db", wanted_dump())
    room.write("whole.dump", wanted_dump())
    room.write("some.dump", b"".join(wanted_dump().splitlines(keepends=True)[::3]))
    os.mkdir(room.path("bin"))
    room.stand_in("#!/bin/sh\nif [ \"$1\" = dump ]; then exit 9; fi\nexec '%s' \"$@\"\n" % real, "kmc_db")
    for words in (["union"], ["intersect"], ["subtract"], ["table"]):
        for pair in (["{}", "some.dump"], ["some.dump", "{}"]):
            of_database, of_dump = (room.run(*words, "-q", *[it.format(name) for it in pair]) for name in ("db.kmc", "whole.dump"))
            assert of_database.status == of_dump.status == 0 and of_database.out == of_dump.out, (words, pair, of_database)
    assert room.run("histogram", "db.kmc").status == 1  # which reads the dump
