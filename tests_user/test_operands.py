"""kmc_db by itself takes a database where it takes a dump: the answers are those of the dump, and a database at fault is told by its place."""
import os
import random

from room import content, program
from test_databases import packed, write_database
from test_joins import CHOICES, OWN, text_of
from test_programs import ended

GREATEST = 2**32 - 1


def a_dump(dice, k):
    words = {"".join(dice.choices("ACGT", k=k)) for _ in range(dice.choice((0, 1, 9, 300)))}
    return text_of({word: dice.choice((1, 2, 3, dice.randrange(1, 50), GREATEST)) for word in words})


def both_ways(room, name, k, dump):
    """The words that mean one dump: its file, the database of it, and the first file of that."""
    packed(room, name, dump, "-k%d" % k, "-ci1", "-cx%d" % GREATEST, "-cs%d" % GREATEST, "--force")
    return [room.write(name + ".dump", dump), name, name + ".kmc_pre"]


def test_databases_are_joined_as_their_dumps_are(room):
    program("kmc_db")
    dice = random.Random(71)
    for number in range(24):
        k = dice.choice((1, 2, 4, 13, 31, 33, 64))
        first, second = a_dump(dice, k), a_dump(dice, k)
        sides = both_ways(room, "first", k, first), both_ways(room, "second", k, second)
        operation = sorted(OWN)[number % len(OWN)]
        choices = [[], *(["-oc" + it] for it in CHOICES)] if OWN[operation] else [[]]
        words = [operation, *dice.choice(choices), "-ci%d" % dice.choice((0, 1, 3)), "-cs%d" % dice.choice((9, GREATEST)), "-rcx%d" % dice.choice((2, GREATEST))]
        for words in (words, ["table", "-cs%d" % dice.choice((5, 1000))]):
            wanted = ended(room, "kmc_db", *words, sides[0][0], sides[1][0])
            assert wanted[0] == 0, wanted
            for left, right in ((1, 0), (0, 1), (1, 1), (2, 2)):
                assert ended(room, "kmc_db", *words, sides[0][left], sides[1][right]) == wanted, (words, left, right)
        wanted = ended(room, "kmc_db", "histogram", sides[0][0])
        assert wanted[0] == 0 and all(ended(room, "kmc_db", "histogram", it) == wanted for it in sides[0]), wanted


def test_a_database_is_joined_with_standard_input(room):
    program("kmc_db")
    both_ways(room, "db", 3, b"AAC\t2\nCCC\t5\n")
    for words in (("-", "db"), ("db", "-"), ("/dev/stdin", "db.kmc_pre")):
        found = ended(room, "kmc_db", "union", "-ci1", *words, text=b"AAA\t1\nCCC\t7\n")
        assert found == (0, b"AAA\t1\nAAC\t2\nCCC\t12\n", b""), (words, found)


def test_a_file_of_the_very_name_is_a_dump(room):
    program("kmc_db")
    both_ways(room, "name", 2, b"AC\t2\n")
    room.write("name", b"CC\t3\n")
    assert ended(room, "kmc_db", "histogram", "name") == (0, b"3\t1\n", b"")
    assert ended(room, "kmc_db", "histogram", "name.kmc_pre") == (0, b"2\t1\n", b"")


def test_a_database_of_other_words_is_refused(room):
    program("kmc_db")
    both_ways(room, "two", 2, b"AC\t2\n")
    both_ways(room, "three", 3, b"AAC\t2\n")
    for words in (["union"], ["table"]):
        assert ended(room, "kmc_db", *words, "two", "three") == (1, b"", b"kmc_db: three: line 1 has a word of another length\n"), words
    os.remove(room.path("three.kmc_suf"))
    assert ended(room, "kmc_db", "union", "two", "three") == (1, b"", b"kmc_db: three.kmc_suf: cannot be opened\n")
    assert ended(room, "kmc_db", "union", "two", "none") == (1, b"", b"kmc_db: none: cannot be opened\n")


def test_databases_of_unlike_strands_are_refused(room):
    program("kmc_db")
    both_ways(room, "joined", 2, b"AC\t2\n")
    packed(room, "apart", b"AC\t2\nGT\t1\n", "-ci1", "-b")
    for words in (["union"], ["intersect"], ["table"]):
        for names in (("joined", "apart"), ("apart.kmc_pre", "joined")):
            told = ("kmc_db: %s, %s: only one of the two was counted with -b\n" % names).encode()
            assert ended(room, "kmc_db", *words, *names) == (1, b"", told), (words, names)
    # a text tells no strands
    room.write("text", b"AC\t5\n")
    assert ended(room, "kmc_db", "union", "-ci1", "text", "apart") == (0, b"AC\t7\nGT\t1\n", b"")
    packed(room, "both", b"AC\t1\n", "-ci1", "-b")
    assert ended(room, "kmc_db", "union", "-ci1", "both", "apart") == (0, b"AC\t3\nGT\t1\n", b"")


def test_each_damaged_byte_of_an_operand_is_told_as_a_dump_tells_it(room):
    program("kmc_db")
    for k, dump, words in ((5, b"AACCG\t1\nAACGG\t2\nCAAAA\t3\n", ["-prefix1", "-cs255"]), (6, b"ACGTAC\t1\nGGGGGG\t70000\n", ["-prefix2", "-cs70000"])):
        sound = packed(room, "sound%d" % k, dump, "-ci1", *words)
        for which in (0, 1):
            text = sound[which]
            for changed in (text[:i] + new + text[i + 1:] for i in range(len(text)) for new in (b"", text[i:i + 1] * 2, bytes([text[i] ^ 1]), bytes([text[i] ^ 128]))):
                files = [*sound]
                files[which] = changed
                write_database(room, "damaged", files)
                status, out, err = ended(room, "kmc_db", "dump", "damaged")
                found = ended(room, "kmc_db", "histogram", "damaged")
                if status:
                    assert found == (status, b"", err), (changed, err, found)
                else:
                    assert found == ended(room, "kmc_db", "histogram", room.write("listed", out)), (changed, found)


def test_a_join_of_databases_that_cannot_be_written_is_told(room):
    program("kmc_db")
    both_ways(room, "db", 3, b"AAC\t2\nCCC\t5\n")
    with open("/dev/full", "wb") as full:
        for words in (["union", "-ci1", "db", "db.kmc_pre"], ["table", "db", "db"], ["histogram", "db"]):
            assert ended(room, "kmc_db", *words, out=full)[::2] == (1, b"kmc_db: cannot write\n"), words
    assert content(room.path("db.kmc_suf")).startswith(b"KMCS")
