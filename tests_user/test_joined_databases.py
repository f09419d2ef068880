"""Answers that are databases, made by ranges of k-mers: both files are those of one kmc_db that packs all lines, and there whole or not at all."""
import json
import os
import random
import signal
import sys

from futoncrane import merging, ranged_output, ranges
from futoncrane.children import Children
from futoncrane.database_output import DatabaseOutput
from futoncrane.faults import Fault
from futoncrane.options import MOST
from room import BIN, LONG, READS, TOP, content, need, program, wait_for
from test_database_answers import files, listed
from test_databases import packed, write_database
from test_joins import OWN
from test_ranged_databases import (GREATEST, LETTERS, a_dump, by_ranges_of, database_of, first_parts, nothing_is_left, one_by_one, overlapping,
                                   setting_of)
from test_signals import interrupted, started
from test_writing import small_disk

LIMITS = ["-ci1", "-cx%d" % MOST, "-cs%d" % GREATEST]
# the command, where few bytes have several ranges
SMALL = """
import sys
sys.path.insert(0, %r)
from futoncrane import main, ranges
ranges.LEAST_BYTES, ranges.RANGE_BYTES, ranges.MOST_TABLES = 0, 900, 1 << 40
sys.exit(main.main(sys.argv[1:], %r))
""" % (TOP, os.path.join(TOP, "futoncrane"))


def in_small_ranges(room):
    """Has the command make ranges of few bytes, and log what its kmc_db are told."""
    real = program("kmc_db")
    room.stand_in("#!/bin/sh\necho \"$*\" >> '%s'\nexec '%s' \"$@\"\n" % (room.path("log"), real), "kmc_db")
    for it in ("kmc_merge", "kmc_cut", "kmc_list", "kmc"):
        if os.path.exists(os.path.join(BIN, it)):
            os.symlink(os.path.join(BIN, it), room.path("bin/" + it))
    room.write("log", b"")
    room.command = [sys.executable, "-S", "-c", SMALL]


def packers(room):
    """How many kmc_db packed ranges since this was asked, and how many packed all."""
    told = [line.rsplit(b"/", 1)[-1] for line in content(room.path("log")).splitlines() if line.startswith(b"pack ")]
    room.write("log", b"")
    return sum(it.startswith(b"range.") for it in told), told.count(b"made")


def answered(room, names, words, told, threads=3, name="kmc_db", out="db"):
    """Whether an answer was made by ranges, and its files; or its fault."""
    setting = setting_of(threads)
    try:
        with Children() as family, DatabaseOutput(room.path(out + ".kmc"), setting, family, told) as output:
            merging.merge(names, merging.WHOLE, family, setting, None, output) if name == "kmc_merge" else merging.merged(
                names, merging.WHOLE, family, setting, output, program=name, words=words)
            is_made, output.is_last = output.is_direct, False  # signals go on to reach this process
            output.finish()
            found = files(room, out)
            assert output.rows == setting.report.written or not is_made
            assert setting.report.steps == list(dict.fromkeys((name, "kmc_db")))
    except Fault as fault:
        is_made, found = None, str(fault)
    nothing_is_left(room)
    return is_made, found


def test_joins_by_ranges_are_the_database_of_one_packer(room):
    by_ranges_of(900)
    source = random.Random(41)
    operations = sorted(OWN)
    for number, k in enumerate((1, 2, 3, 4, 5, 9, 13, 32, 33, 64)):
        sides = []
        for name, dump in zip(("left", "right"), overlapping(source, k, 90)):
            sides.append([room.path(room.write(name + ".dump", dump)), database_of(room, name, dump, k, source.choice(first_parts(k)))])
        for operation in (operations[number % 4], operations[(number + 1) % 4]):
            choice = ["-oc" + source.choice(("min", "max", "diff", "left", "right"))] if OWN[operation] else []
            told = [*LIMITS[:2], "-cs%d" % GREATEST, *(["-b"] if number % 2 else [])]
            wanted = packed(room, "wanted", one_by_one(room, [sides[0][0], sides[1][0]], [operation, *choice]), "-k%d" % k, *told, "--force")
            for left, right in ((0, 0), (1, 0), (0, 1), (1, 1)):
                is_told = left == right or len(wanted[1]) == 8
                found = answered(room, [sides[0][left], sides[1][right]], [operation, *choice], [*told, *(["-k%d" % k] if is_told else [])])
                assert found == (True, wanted), (k, operation, choice, left, right, found[0])


def test_merges_by_ranges_are_the_database_of_one_packer(room):
    program("kmc_merge")
    by_ranges_of(400)
    source = random.Random(42)
    for k in (2, 10, 25):
        dumps = [a_dump(source, k, 70).replace(b"%d" % GREATEST, b"7") for _ in range(3)]
        plain = [room.path(room.write("%d.dump" % number, it)) for number, it in enumerate(dumps)]
        wanted = answered(room, plain, [], LIMITS, 1, "kmc_merge")
        assert wanted[0] is False and len(wanted[1][1]) > 8
        mixed = [plain[0], database_of(room, "second", dumps[1], k, first_parts(k)[-1]), database_of(room, "third", dumps[2], k, first_parts(k)[0])]
        for names in (plain, mixed):
            assert answered(room, names, [], LIMITS, 3, "kmc_merge") == (True, wanted[1]), k


def test_a_first_part_of_several_ranges_and_ranges_without_rows(room):
    by_ranges_of(200)
    source = random.Random(43)
    rest = sorted({"".join(source.choices(LETTERS, k=8)) for _ in range(120)})
    left = "".join("GATTA%s\t7\n" % it for it in rest).encode()
    right = b"AAAAAAAAAAAAA\t1\n" + left.splitlines(keepends=True)[60] + b"TTTTTTTTTTTTT\t300\n"
    names = [room.path(room.write("left", left)), room.path(room.write("right", right))]
    for words in (["union"], ["intersect"], ["subtract"]):
        wanted = packed(room, "wanted", one_by_one(room, names, words), *LIMITS, "--force")
        for told in (LIMITS, [*LIMITS, "-k13"]):
            assert answered(room, names, words, told) == (True, wanted), (words, told)
    # one program tells what is wrong with an answer without lines, of which nobody told k
    room.write("right", left)
    assert answered(room, names, ["subtract"], [*LIMITS, "-k13"]) == (True, packed(room, "wanted", b"", "-k13", *LIMITS, "--force"))
    assert answered(room, names, ["subtract"], LIMITS) == answered(room, names, ["subtract"], LIMITS, 1) != (True, files(room))
    assert answered(room, names, ["union"], [*LIMITS, "-k14"])[0] is None


def test_few_bytes_and_one_thread_are_packed_by_one(room):
    names = [room.path(room.write(name, b"AC\t1\nCA\t2\n")) for name in "ab"]
    for size, threads in ((1 << 20, 3), (0, 1)):
        by_ranges_of(1, size)
        assert answered(room, names, ["union"], LIMITS, threads) == (False, packed(room, "wanted", b"AC\t2\nCA\t4\n", *LIMITS, "--force"))


def two_dumps(room, rows=300):
    """The names of two dumps of 21 letters, and the files of their union."""
    dumps = [a_dump(random.Random(seed), 21, rows).replace(b"%d" % GREATEST, b"9") for seed in (44, 45)]
    names = [room.path(room.write(name, it)) for name, it in zip(("left.dump", "right.dump"), dumps)]
    assert min(it.count(b"\n") for it in dumps) > 100
    return names, packed(room, "wanted", one_by_one(room, names, ["union"]), *LIMITS, "--force")


def test_a_range_that_is_not_made_leaves_all_to_one_program(room):
    by_ranges_of(900)
    names, wanted = two_dumps(room)
    assert answered(room, names, ["union"], LIMITS) == (True, wanted)
    real = os.path.join(BIN, "kmc_db")
    other = "set -- $(echo \"$*\" | sed s/-ci1/-ci2/)"
    for number in (0, 1, 3):
        for what in ("exit 1", "kill -KILL $$", "exit 0", "cat > /dev/null; exit 0", "'%s' \"$@\"; exit 1" % real, other):
            room.stand_in("#!/bin/sh\ncase \"$*\" in *range.%d) %s;; esac\nexec '%s' \"$@\"\n" % (number, what, real), "kmc_db")
            os.environ["FUTONCRANE_BIN"] = room.path("bin")
            assert answered(room, names, ["union"], LIMITS) == (False, wanted), (number, what)
    # the files of a range are there, and are none of a database
    for what in ("cp left.dump $last.kmc_suf", "cp left.dump $last.kmc_pre", "truncate -s -1 $last.kmc_pre", "truncate -s +1 $last.kmc_suf"):
        script = "#!/bin/sh\nfor last; do :; done\n'%s' \"$@\" || exit\ncase $last in *range.1) cd '%s'; %s;; esac\n" % (real, room.folder, what)
        room.stand_in(script, "kmc_db")
        assert answered(room, names, ["union"], LIMITS) == (False, wanted), what
    # and programs that join, which end at fault or too early
    for what in ("kill -KILL $$", "exit 1", "'%s' \"$@\" | head -n 1; exit 1" % real):
        room.stand_in("#!/bin/sh\ncase \"$1 $*\" in union*/dev/fd*) %s;; esac\nexec '%s' \"$@\"\n" % (what, real), "kmc_db")
        assert answered(room, names, ["union"], LIMITS) == (False, wanted), what


def test_a_folder_without_room_for_ranges_leaves_it_to_one_program(room):
    by_ranges_of(900)
    names, wanted = two_dumps(room)
    taken = -(-len(wanted[0]) // 4096) - (-len(wanted[1]) // 4096)
    with small_disk(room, 4096 * (taken + 3)):
        for threads in (1, 3):
            assert answered(room, names, ["union"], LIMITS, threads, out="disk/db") == (False, wanted)
            assert sorted(os.listdir(room.path("disk"))) == ["db.kmc_pre", "db.kmc_suf"]
            for it in os.listdir(room.path("disk")):
                os.remove(room.path("disk/" + it))


def test_the_whole_is_not_written_where_its_disk_is_full(room):
    by_ranges_of(900)
    names, wanted = two_dumps(room)
    before = ranged_output.is_copied
    try:
        for many in (0, 1, 3):
            taken = []
            ranged_output.is_copied = lambda *given: len(taken) < many and (taken.append(given) or before(*given))
            assert answered(room, names, ["union"], LIMITS) == (False, wanted), many
    finally:
        ranged_output.is_copied = before
    # a sink that takes no more
    with open("/dev/full", "wb", buffering=0) as full, open(names[0], "rb") as file:
        assert not ranges.is_copied(full.fileno(), file.fileno(), 0, 10)


def test_the_command_joins_into_databases_by_ranges(room):
    in_small_ranges(room)
    names, wanted = two_dumps(room)
    room.counts(b"", "union", "--cap", str(GREATEST), "-t3", "-o", "db.kmc", "--json", "told", *names)
    assert files(room) == wanted
    many, one = packers(room)
    assert many >= 3 and one == 0
    told = json.loads(content(room.path("told")))
    assert told["totals"]["listed"] == (len(wanted[1]) - 8) // 8 and told["steps"] == ["kmc_db"], told
    assert os.stat(room.path("db.kmc_suf")).st_mode & 0o777 == os.stat(room.path("db.kmc_pre")).st_mode & 0o777 == 0o666 & ~0o022
    # what the database lists is what the commands write as lines
    need("kmc_tools")
    program("kmc_merge")
    for words in (["intersect"], ["subtract"], ["subtract", "--counts"], ["union", "--count", "max"], ["merge", "--min", "2", "--cap", "300"]):
        given = [*words, "-q", "--cap", "100000"] if words[0] != "merge" else [*words, "-q"]
        text = room.run(*given, "-t1", "db.kmc", names[0]).out
        packers(room)
        room.counts(b"", *given, "-t3", "-o", "other.kmc", "db.kmc", names[0])
        assert packers(room)[1] == 0 and text and listed(room, "other") == text, words


def test_counts_in_slices_are_merged_into_a_database_by_ranges(room):
    for it in ("kmc_cut", "kmc_list", "kmc_merge"):
        program(it)
    in_small_ranges(room)
    for k, words in ((25, []), (3, ["--min", "1", "--cap", "none"]), (13, ["--forward"])):
        room.counts(b"", "count", "-q", "-k%d" % k, *words, "--slices", "40", "-t1", "-o", "one.kmc", READS)
        assert packers(room) == (0, 1)
        room.counts(b"", "count", "-q", "-k%d" % k, *words, "--slices", "3", "-t3", "-o", "db.kmc", READS)
        many, one = packers(room)
        assert many >= 3 and one == 0 and files(room) == files(room, "one"), k
        room.counts(b"", "count", "-q", "-k%d" % k, *words, "-o", "one.kmc", READS)
        assert files(room) == files(room, "one"), k


def test_faults_are_told_as_one_program_tells_them(room):
    in_small_ranges(room)
    names, _ = two_dumps(room)
    lines = content(names[1]).splitlines(keepends=True)
    place = len(lines) * 3 // 4
    for wrong, told in ((lines[place] + lines[place - 1], "line %d" % (place + 1)), (lines[place].replace(b"\t", b" "), "line %d" % place)):
        room.write("wrong.dump", b"".join(lines[:place - 1]) + wrong + b"".join(lines[place + 1:]))
        room.refuses(1, "wrong.dump", told, words=["union", "-q", "-t3", "-o", "db.kmc", names[0], "wrong.dump"])
        assert packers(room)[1] == 1
    # a count that no database holds, which is one of the last
    room.write("wrong.dump", b"".join(lines[:-1]) + lines[-1].split(b"\t")[0] + b"\t4294967296\n")
    room.refuses(1, "db.kmc: ", "--cap 4294967295", words=["union", "-q", "-t3", "-o", "db.kmc", names[0], "wrong.dump"])
    assert packers(room)[1] == 1
    # a row of a database
    database_of(room, "wrong", content(names[1]), 21, 1)
    prefix, suffix = files(room, "wrong")
    write_database(room, "wrong", (prefix, suffix[:-22] + suffix[-13:-4] + suffix[-13:]))
    room.refuses(1, "wrong", "row", words=["intersect", "-q", "-t3", "-o", "db.kmc", names[0], "wrong.kmc"])
    # no room for the answer at all
    with small_disk(room, 1 << 13):
        ran = room.run("union", "-q", "-t3", "-o", "disk/db.kmc", *names)
        assert ran.status == 1 and ran.err.count("\n") == 1 and "disk/db.kmc_" in ran.err and "no space left" in ran.err, ran
        assert os.listdir(room.path("disk")) == []
    assert not [it for it in os.listdir(room.folder) if it.startswith((".futoncrane-", "db."))]


def test_a_signal_while_ranges_are_packed_leaves_nothing(room):
    in_small_ranges(room)
    names, _ = two_dumps(room)
    real = program("kmc_db")
    before = room.files()
    # packers that wait behind the lines of a range, and those that wait before them and go on to write
    for what in ("'%s' \"$@\"; echo > '%s'; exec sleep %d" % (real, room.path("begun"), LONG),
                 "for last; do :; done; echo > '%s'; for it in $(seq 1000000); do echo > \"$last.kmc_suf\"; done" % room.path("begun")):
        room.stand_in("#!/bin/sh\ncase \"$*\" in *range.[12]) %s;; esac\nexec '%s' \"$@\"\n" % (what, real), "kmc_db")
        for number in (signal.SIGINT, signal.SIGTERM):
            child = started(room, ["union", "-q", "-t3", "-o", "db.kmc", *names], start_new_session=True)
            wait_for(room, "begun")
            status, told, left = interrupted(child, number)
            os.remove(room.path("begun"))
            assert (status, told, left) == (128 + number, "", set()), (what, status, told, left)
            assert room.files() == before and not [it for it in os.listdir(room.folder) if it.startswith(".futoncrane-")]
