"""futoncrane query: the counts of given words, of dumps and of databases."""
import gzip
import os
import random
import threading

from room import READS, content, plainly, program
from test_databases import packed
from test_programs import ended

COMPLEMENT = str.maketrans("ACGT", "TGCA")


def other_strand(word):
    return word.translate(COMPLEMENT)[::-1]


def asked(dump, k, dice):
    """Words that the dump lists, their other strands, and words that it does not list, some more than once."""
    listed = [line.split("\t")[0] for line in dump.decode().splitlines()]
    words = dice.sample(listed, 20)
    return words + [other_strand(it) for it in words[:5]] + ["".join(dice.choices("ACGT", k=k)) for _ in range(20)] + words[:3]


def answer(dump, words, apart=False):
    counts = dict(line.split("\t") for line in dump.decode().splitlines())
    return "".join("%s\t%s\n" % (it, counts.get(it if apart else min(it, other_strand(it)), 0)) for it in words).encode()


def test_words_are_answered_in_their_order(room):
    program("kmc_db")
    dice = random.Random(3)
    for k, apart in ((25, False), (6, False), (31, True)):
        dump = plainly(content(READS), k, 1, 1 << 63, 1 << 63, *(["apart"] if apart else []))
        words = asked(dump, k, dice)
        wanted = answer(dump, words, apart)
        option = ["--forward"] if apart else ["--both-strands"]
        room.write("dump", dump)
        room.write("dump.gz", gzip.compress(dump))
        packed(room, "db", dump, "-ci1", "-cs100000", "--force", *(["-b"] if apart else []))
        for name in ("dump", "dump.gz", "db.kmc"):
            assert room.run("query", *option, name, *words).out == wanted, name
            ran = room.run("query", *option, name, text="".join(it + "\n" for it in words).encode())
            assert (ran.status, ran.out, ran.err) == (0, wanted, ""), ran
            assert room.run("query", *option, name, *map(str.lower, words)).out == wanted, name
        # the header of a database says it
        room.counts(wanted, "query", "db.kmc", *words)
        room.counts(b"", "query", "-o", "out.gz", "db.kmc", *words)
        assert gzip.decompress(content(room.path("out.gz"))) == wanted


def test_strands_are_told_by_the_note(room):
    program("kmc_db")
    dump = plainly(content(READS), 25, 2, 1 << 63, 255, "apart")
    words = asked(dump, 25, random.Random(4))
    room.counts(b"", "count", "-k25", "--forward", "-o", "dump", READS)
    room.counts(answer(dump, words, True), "query", "dump", *words)
    room.write("bare", dump)
    ran = room.run("query", "bare", *words)
    assert ran.out == answer(dump, words) and ran.err.count("\n") == 1 and "bare: no note (DUMP.json) tells whether strands are joined" in ran.err, ran
    assert room.run("query", "--quiet", "bare", *words).err == ""


def test_a_query_is_refused(room):
    program("kmc_db")
    room.write("dump", b"ACG\t2\nCCG\t3\n")
    room.refuses(2, "no dump is given", words=["query"])
    room.refuses(2, "the dump is a file", words=["query", "-", "ACG"])
    room.refuses(2, "dump: it is read", words=["query", "-o", "dump", "dump", "ACG"])
    room.refuses(1, "none: No such file", words=["query", "none", "ACG"])
    room.refuses(1, "none.kmc_pre: No such file", words=["query", "none.kmc", "ACG"])
    for word, told in (("ACGT", "it is not as long as the first word"), ("AC", "it is not as long"), ("ANG", "it is no word of 1 to 64 letters"), ("A" * 65, "it is no word")):
        room.refuses(1, "word 2, %s: %s" % (word, told), words=["query", "--both-strands", "-o", "out", "dump", "ACG", word])
        room.refuses(1, "standard input: ", "line 2", words=["query", "--both-strands", "-o", "out", "dump"], text=b"ACG\n%s\n" % word.encode())
    room.refuses(1, "dump: its k-mers are not as long as the words", words=["query", "--both-strands", "-o", "out", "dump", "ACGT"])
    room.write("bad", b"ACG\t2\nAAA\t3\n")
    room.refuses(1, "bad: line 2", words=["query", "--both-strands", "-o", "out", "bad", "ACG"])
    room.counts(b"", "query", "--both-strands", "dump", text=b"")


def lines_of(words):
    return "".join(it + "\n" for it in words).encode()


def test_a_database_is_queried_in_place(room):
    dice = random.Random(5)
    for k, apart in ((1, False), (4, False), (5, True), (13, False), (25, False), (31, True), (32, False), (33, True), (64, False)):
        dump = plainly(content(READS), k, 1, 1 << 63, 1 << 63, *(["apart"] if apart else []))
        listed = [line.split("\t")[0] for line in dump.decode().splitlines()]
        words = listed[:2] + listed[-2:] + dice.choices(listed, k=30)
        words += [other_strand(it) for it in words[:9]] + ["".join(dice.choices("ACGT", k=k)) for _ in range(30)] + ["A" * k, "T" * k]
        for options in ([], ["-prefix%d" % (k if k < 9 else (k - 1) % 4 + 1)]):
            packed(room, "db", dump, "-ci1", "-cs100000", "--force", *options, *(["-b"] if apart else []))
            for name in ("db", "db.kmc_pre"):
                assert ended(room, "kmc_db", "query", name, text=lines_of(words)) == (0, answer(dump, words, apart), b""), (k, options, name)
        asked_apart = ended(room, "kmc_db", "query", "-b", "db", text=lines_of(words))
        if apart:
            assert asked_apart == (0, answer(dump, words, True), b""), asked_apart
        else:
            assert asked_apart[:2] == (1, b"") and asked_apart[2].startswith(b"kmc_db: db: counts a word and its reverse complement together"), asked_apart
    assert ended(room, "kmc_db", "query", "db") == (0, b"", b"")


def test_a_query_in_place_tells_what_is_at_fault(room):
    prefix, suffix = packed(room, "db", b"ACGTA\t1\nCGTAA\t2\nGTAAC\t302\n", "-prefix1", "-ci1", "-cs1000")
    for words, line in ((b"ACGTA\nACGT\n", b"kmc_db: standard input: line 2 "), (b"ACGNA\n", b"kmc_db: standard input: line 1 is no word of 1 to 64 letters")):
        status, out, told = ended(room, "kmc_db", "query", "db", text=words)
        assert (status, out) == (1, b"") and told.startswith(line) and told.count(b"\n") == 1, told
    status, out, told = ended(room, "kmc_db", "query", "db", text=b"ACG\n")
    assert (status, out) == (1, b"") and b"not as long as those of db" in told, told
    damaged = [(prefix[1:], suffix, b"the prefix file is not as long as its header asks for"), (prefix, suffix[:-1], b"the suffix file is not as long as the header asks for"),
               (prefix, b"KMCP" + suffix[4:], b"the suffix file does not begin and end with its marker"), (b"KMCS" + prefix[4:], suffix, b"the prefix file does not begin with its marker"),
               (prefix[:4] + prefix[12:20] + prefix[4:12] + prefix[20:], suffix, b"entry 0 of the table is out of order")]
    for pre, suf, why in damaged:
        room.write("db.kmc_pre", pre)
        room.write("db.kmc_suf", suf)
        status, out, told = ended(room, "kmc_db", "query", "db", text=b"ACGTA\n")
        assert (status, out, told) == (1, b"", b"kmc_db: db: %s\n" % why), told
    os.remove(room.path("db.kmc_suf"))
    assert ended(room, "kmc_db", "query", "db", text=b"ACGTA\n") == (1, b"", b"kmc_db: db.kmc_suf: cannot be opened\n")


def test_a_dump_through_a_named_pipe_is_queried(room):
    program("kmc_db")
    os.mkfifo(room.path("pipe"))

    def give():
        with open(room.path("pipe"), "wb") as pipe:
            pipe.write(b"ACG\t2\nCCG\t3\n")
    giver = threading.Thread(target=give)
    giver.start()
    assert ended(room, "kmc_db", "query", "pipe", text=b"CCG\nACG\nAAA\n") == (0, b"CCG\t3\nACG\t2\nAAA\t0\n", b"")
    giver.join()
