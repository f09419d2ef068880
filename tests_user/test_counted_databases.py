"""kmc_db count: reads are counted into the two files of the database that their packed dump is."""
import os

from room import READS, content, plainly, program
from test_databases import packed
from test_programs import ended

def counted(room, name, text, *words):
    """The two files that kmc_db counts a text into."""
    assert ended(room, "kmc_db", "count", *words, name, text=text) == (0, b"", b""), words
    return tuple(content(room.path(name + end)) for end in (".kmc_pre", ".kmc_suf"))


def test_reads_are_counted_into_the_database_of_their_dump(room):
    program("kmc_db")
    text = content(READS)
    for number, (k, words, first_part, *limits) in enumerate((
            (25, [], [], 2, 10**9), (1, ["-ci1"], [], 1, 10**9), (4, ["-ci1", "-cs1000", "-sp2", "-sr3"], ["-prefix4"], 1, 10**9, 1000),
            (13, ["-b", "-ci1"], ["-prefix9"], 1, 10**9, 255, "apart"), (31, ["-ci3", "-cx9"], [], 3, 9), (33, ["-ci1", "-cs1"], ["-prefix1"], 1, 10**9, 1),
            (64, ["-ci1", "-cs70000"], [], 1, 10**9, 70000))):
        wanted = packed(room, "packed%d" % number, plainly(text, k, *limits), "-k%d" % k, *[it for it in words if it[:3] in ("-ci", "-cx", "-cs", "-b")], *first_part)
        assert counted(room, "counted%d" % number, text, "-k%d" % k, *words, *first_part) == wanted, (k, words)


def test_options_have_their_long_forms(room):
    program("kmc_db")
    assert counted(room, "one", content(READS), "--k", "7", "--ci=1") == counted(room, "two", content(READS), "-k7", "-ci1")


def test_words_that_are_not_understood(room):
    program("kmc_db")
    usage = b"usage: kmc_db count [options of kmc] [-prefix<len>] [--force] <name> < reads\n"
    for words in ([], ["-k5"], ["other", "db"], ["db", "-k5"], ["-prefix0", "db"], ["-prefix16", "db"], ["-prefix", "db"], ["-prefix2", "-prefix2", "db"],
                  ["-k5", "-k5", "db"], ["--unknown", "db"]):
        assert ended(room, "kmc_db", "count", *words, text=b"") == (2, b"", usage), words
    assert ended(room, "kmc_db", "count", "-k65", "db", text=b"") == (2, b"", b"kmc_db: value of -k is out of range\n")
    assert not [it for it in os.listdir(room.folder) if it.startswith("db")]


def test_files_that_are_there_stay_but_by_force(room):
    program("kmc_db")
    room.write("db.kmc_suf", b"mine")
    assert ended(room, "kmc_db", "count", "db", text=content(READS)) == (1, b"", b"kmc_db: db.kmc_suf: cannot be made\n")
    assert content(room.path("db.kmc_suf")) == b"mine"
    os.remove(room.path("db.kmc_pre"))
    assert counted(room, "db", content(READS), "--force") == counted(room, "other", content(READS))


def test_faults_are_told(room):
    program("kmc_db")
    for words, text, told in ((["-k4", "-prefix3"], content(READS), b"words of 4 symbols have no such first part"), ([], b"@r\nAC\n+\nI\n", b"line 4: "),
                              (["-fa"], b"@r\n", b"line 1: ")):
        status, out, err = ended(room, "kmc_db", "count", "--force", *words, "db", text=text)
        assert (status, out) == (1, b"") and err.startswith(b"kmc_db: " + told) and err.count(b"\n") == 1, err
        assert content(room.path("db.kmc_pre")) == content(room.path("db.kmc_suf")) == b""
    for end in ("kmc_pre", "kmc_suf"):
        os.symlink("/dev/full", room.path("full." + end))
        told = ("kmc_db: full.%s: cannot be written\n" % end).encode()
        assert ended(room, "kmc_db", "count", "--force", "full", text=content(READS)) == (1, b"", told)
        for it in ("kmc_pre", "kmc_suf"):
            os.remove(room.path("full." + it))
