"""Databases in ranges of k-mers, beside each other and beside dumps: the answer, or the fault, is that of one program that reads them whole."""
import collections
import contextlib
import os
import random
import signal
import subprocess
import tempfile
import threading
import types

from futoncrane import children, joining, merging, ranged_databases, ranges, report
from futoncrane.children import Children
from futoncrane.faults import Fault
from futoncrane.options import MOST
from futoncrane.output import Output
from room import BIN, LONG, content, program, wait_for
from test_databases import listed, packed, write_database
from test_joins import CHOICES, OWN
from test_signals import interrupted, started

GREATEST = 2**32 - 1
LETTERS = "ACGT"


def a_dump(source, k, most):
    """The text of a dump whose counts fit a database."""
    words = sorted({"".join(source.choices(LETTERS, k=k)) for _ in range(source.randint(1, most))})
    return "".join("%s\t%d\n" % (it, source.choice((1, 2, 12, 4000, GREATEST))) for it in words).encode()


def overlapping(source, k, most):
    """Two dumps that share some lines."""
    lines = a_dump(source, k, most).splitlines(keepends=True)
    return [b"".join(it for it in lines if source.random() < 0.6) or lines[0] for _ in range(2)]


def first_parts(k):
    return [it for it in range(1, min(k, 7) + 1) if (k - it) % 4 == 0]


def database_of(room, name, dump, k, prefix):
    """The name of the database of a dump."""
    packed(room, name, dump, "-k%d" % k, "-prefix%d" % prefix, "-ci1", "-cx%d" % GREATEST, "-cs%d" % GREATEST, "--force")
    return room.path(name + ".kmc")


def by_ranges_of(size, least=0):
    """Has ranges be made of so many bytes of lines, where these are no fewer than `least`."""
    program("kmc_db")
    ranges.LEAST_BYTES, ranges.RANGE_BYTES, ranges.MOST_TABLES = least, size, 1 << 40


def setting_of(threads):
    return types.SimpleNamespace(threads=threads, quiet=True, report=report.Report(False))


def nothing_is_left(room):
    """That no child, no thread and no file of the meantime is there."""
    assert not children.RUNNING and not children.FOLDERS and not children.TEMPORARY
    assert not [it for it in threading.enumerate() if it is not threading.main_thread() and "_send" in repr(it)]
    assert threading.active_count() < 8
    assert not [it for it in room.files() if ".futoncrane-" in it] and not [it for it in os.listdir(room.folder) if it.startswith(".futoncrane-")]


def answered(room, names, words, threads=3, name="kmc_db"):
    """The dump of a join, or the fault that is told."""
    with Children() as family, Output(room.path("answer"), family) as output:
        try:
            merging.merged(names, merging.WHOLE, family, setting_of(threads), output, program=name, words=words)
            found = content(output.work)
        except Fault as fault:
            found = str(fault)
    nothing_is_left(room)
    return found


def joined(room, names, words, threads=3, name="kmc_db"):
    """Whether a join was made by ranges, and its dump."""
    with Children() as family, Output(room.path("answer"), family) as output:
        is_done = ranges.joined(names, name, [*words, *merging.WHOLE], family, setting_of(threads), output)
        found = content(output.work)
    nothing_is_left(room)
    return is_done, found


def one_by_one(room, names, words):
    """The same by one program."""
    with Children() as family, Output(room.path("answer"), family) as output:
        merging.merged(names, merging.WHOLE, family, setting_of(1), output, program="kmc_db", words=words)
        return content(output.work)


def handed(part, path):
    """What a program is given of a part of a database: the bytes of both of its files."""
    name = part.given(path)
    source = os.dup(part.source)
    part.begin()
    with open(source, "rb") as pipe:
        found = content(name + ".kmc_pre"), pipe.read()
    assert part.is_taken() and os.path.islink(name + ".kmc_suf")
    part.drop()
    assert not os.path.lexists(name + ".kmc_pre") and not os.path.lexists(name + ".kmc_suf")
    return found


def test_a_range_of_a_database_is_a_database_of_its_rows(room):
    by_ranges_of(1)
    source = random.Random(21)
    for k in (1, 2, 5, 13, 31, 64):
        for prefix in first_parts(k)[:3]:
            dump = a_dump(source, k, 90)
            database_of(room, "db", dump, k, prefix)
            for many in (2, 3, 7):
                with contextlib.ExitStack() as files:
                    database = ranged_databases.RangedDatabase(room.path("db"), files)
                    found = [listed(*handed(part, room.path("range"))) for part, in ranges.ranges_of([database], many)]
                assert b"".join(found) == dump, (k, prefix, many)
                if prefix > 1 and dump.count(b"\n") > 20:
                    assert len(found) == many and max(map(len, found)) < len(dump) * 2 // many + 1000


def test_joins_of_databases_and_dumps_by_ranges_are_those_of_one_program(room):
    by_ranges_of(900)
    source = random.Random(22)
    operations = sorted(OWN)
    for number, k in enumerate((1, 2, 3, 4, 9, 13, 31, 33, 64)):
        dumps = overlapping(source, k, 90)
        sides = []
        for name, dump in zip(("left", "right"), dumps):
            sides.append([room.path(room.write(name + ".dump", dump)), database_of(room, name, dump, k, source.choice(first_parts(k)))])
        for operation in (operations[number % 4], operations[(number + 1) % 4]):
            choice = ["-oc" + source.choice(sorted(CHOICES))] if OWN[operation] else []
            words = [operation, *choice, "-lci%d" % source.choice((0, 2))]
            wanted = one_by_one(room, [sides[0][0], sides[1][0]], words)
            for left, right in ((1, 0), (0, 1), (1, 1)):
                assert joined(room, [sides[0][left], sides[1][right]], words) == (True, wanted), (k, words, left, right)


def test_tables_and_histograms_of_databases_by_ranges(room):
    by_ranges_of(900)
    source = random.Random(23)
    for k in (2, 6, 33):
        dumps = overlapping(source, k, 150)
        names = [database_of(room, "left", dumps[0], k, first_parts(k)[-1]), room.path(room.write("right.dump", dumps[1]))]
        left, right = ({word: int(count) for word, count in (line.split(b"\t") for line in it.splitlines())} for it in dumps)
        for cap in (1, MOST):
            wanted = collections.Counter((min(cap, left.get(word, 0)), min(cap, right.get(word, 0))) for word in {*left, *right})
            for given in (names, [names[0], database_of(room, "right", dumps[1], k, first_parts(k)[0])]):
                with Children() as family:
                    found = joining.table_by_ranges(given, cap, family, setting_of(3))
                    assert found == sorted((*counts, wanted[counts]) for counts in wanted), (k, cap)
        with Children() as family:
            found = ranges.tallied(names[:1], "kmc_db", ["histogram"], family, setting_of(3))
            assert found == collections.Counter((it,) for it in left.values()), k
    nothing_is_left(room)


def test_databases_without_rows_with_one_and_with_all_in_one_entry(room):
    by_ranges_of(300)
    source = random.Random(24)
    dump = a_dump(source, 9, 80)
    some = [room.path(room.write("some.dump", dump)), database_of(room, "same", dump, 9, 5)]
    same_first = b"".join(b"GATTA%s\t7\n" % "".join(it).encode() for it in sorted({tuple(source.choices(LETTERS, k=4)) for _ in range(60)}))
    for number, rows in enumerate((b"", dump.splitlines(keepends=True)[0], b"A" * 9 + b"\t1\n", b"T" * 9 + b"\t1\n", same_first)):
        plain = room.path(room.write("other.dump", rows))
        for prefix in (1, 5):
            other = database_of(room, "other", rows, 9, prefix)
            for words in (["union"], ["counters-subtract"], ["intersect", "-ocleft"])[number % 2:][:2]:
                wanted = one_by_one(room, [some[0], plain], words), one_by_one(room, [plain, some[0]], words)
                for it in some:
                    assert joined(room, [it, other], words) == (True, wanted[0]), (rows, prefix, words)
                    assert joined(room, [other, it], words) == (True, wanted[1]), (rows, prefix, words)
    # nothing is there to part
    nothing = database_of(room, "other", b"", 9, 5), database_of(room, "more", b"", 9, 1)
    assert joined(room, nothing, ["union"]) == (False, b"")


def test_sums_of_databases_are_made_by_ranges(room):
    program("kmc_merge")
    by_ranges_of(400)
    source = random.Random(25)
    for k in (3, 21, 64):
        dumps = [*overlapping(source, k, 100), a_dump(source, k, 60)]
        names = [database_of(room, "first", dumps[0], k, first_parts(k)[0]), room.path(room.write("second.dump", dumps[1])),
                 database_of(room, "third", dumps[2], k, first_parts(k)[-1])]
        sums = collections.Counter()
        for line in b"".join(dumps).splitlines():
            sums[line.split(b"\t")[0]] += int(line.split(b"\t")[1])
        wanted = b"".join(b"%s\t%d\n" % it for it in sorted(sums.items()))
        assert joined(room, names, [], name="kmc_merge") == (True, wanted), k
        prefix, suffix = content(room.path("third.kmc_pre")), content(room.path("third.kmc_suf"))
        write_database(room, "third", (prefix, suffix[:-8] + bytes(4) + suffix[-4:]))
        assert joined(room, names, [], name="kmc_merge") == (False, b""), k


def both_ways(room, names, words, size=1 << 20):
    """The answer, or the fault, by ranges and by one program: that of the latter, once they are the same."""
    by_ranges_of(size, 1 << 60)
    wanted = answered(room, names, words)
    by_ranges_of(size)
    found = answered(room, names, words)
    assert found == wanted, (found, wanted)
    return wanted


def test_each_damaged_byte_of_a_database_is_told_as_one_program_tells_it(room):
    by_ranges_of(1 << 20)
    dump = b"AACCG\t1\nAACGG\t2\nCAAAA\t3\nTTTTG\t200\n"
    names = [room.path("damaged.kmc"), room.path(room.write("other.dump", b"AACCG\t4\nGGGGG\t5\n"))]
    database_of(room, "damaged", dump, 5, 1)
    sound = packed(room, "sound", dump, "-prefix1", "-ci1", "-cs255", "--force")
    write_database(room, "damaged", sound)
    assert joined(room, names, ["union"])[0]
    told = collections.Counter()
    for which, text in enumerate(sound):
        for place in range(len(text)):
            changes = bytes([text[place] ^ 1]), bytes([text[place] + 2 & 255]), b"", text[place:place + 1] * 2
            for new in [changes[place % 2], *([changes[2 + place // 4 % 2]] if place % 4 == 0 else [])]:
                files = [*sound]
                files[which] = text[:place] + new + text[place + 1:]
                write_database(room, "damaged", files)
                told[type(both_ways(room, names, ["union"]))] += 1
    assert told[str] > 90 and told[bytes] > 10, told


def entry(number):
    return number.to_bytes(8, "little")


def test_a_table_that_falls_or_goes_beyond_is_told(room):
    by_ranges_of(900)
    dump = a_dump(random.Random(26), 11, 300)
    names = [database_of(room, "db", dump, 11, 3), room.path(room.write("other.dump", a_dump(random.Random(27), 11, 50)))]
    table, suffix, rows = content(room.path("db.kmc_pre")), content(room.path("db.kmc_suf")), dump.count(b"\n")
    with contextlib.ExitStack() as files:
        database = ranged_databases.RangedDatabase(room.path("db"), files)
        bound = sorted(map(database.place_of, database.bounds(3)))[0]
    assert joined(room, names, ["union"])[0] and 1 < bound < 62
    for number in (0, 1, bound - 1, bound, bound + 1, 63):
        at = 4 + 8 * number
        now = int.from_bytes(table[at:at + 8], "little")
        for wrong in {0, now - 1, now + 9, rows, rows + 1, (1 << 64) - 1} - {now, -1}:
            write_database(room, "db", (table[:at] + entry(wrong) + table[at + 8:], suffix))
            is_one = listed(content(room.path("db.kmc_pre")), suffix) is not None
            assert joined(room, names, ["union"])[0] is is_one, (number, wrong)
        both_ways(room, names, ["union"], 900)


def test_an_entry_without_rows_beside_it_is_judged(room):
    by_ranges_of(500)
    names = [database_of(room, "db", b"AAAAA\t1\nTTTTT\t2\n", 5, 5), room.path(room.write("other.dump", a_dump(random.Random(28), 5, 200)))]
    table, suffix = content(room.path("db.kmc_pre")), content(room.path("db.kmc_suf"))
    assert joined(room, names, ["union"])[0]
    for number in (2, 3, 170, 511, 512, 513, 1000, 1022):
        for wrong in (0, 2):
            at = 4 + 8 * number
            write_database(room, "db", (table[:at] + entry(wrong) + table[at + 8:], suffix))
            assert joined(room, names, ["union"]) == (False, b""), (number, wrong)


def test_suffix_files_of_other_sizes_and_other_forms_are_no_ranges(room):
    k = 13
    dump = a_dump(random.Random(29), k, 200)
    names = [database_of(room, "db", dump, k, 5), room.path(room.write("other.dump", a_dump(random.Random(30), k, 50)))]
    prefix, suffix = content(room.path("db.kmc_pre")), content(room.path("db.kmc_suf"))
    row = (k - 5) // 4 + 4
    for wrong in (suffix[:-row - 4] + suffix[-4:], suffix[:-4] + b"\1" * row + suffix[-4:], suffix + b"KMCS", suffix[4:], b"", b"KMCS",
                  suffix[:-4] + b"KMCP", b"XMCS" + suffix[4:]):
        write_database(room, "db", (prefix, wrong))
        assert isinstance(both_ways(room, names, ["union"], 900), str)
    header = prefix[-72:]
    for wrong in (prefix[:-72] + header[:60] + b"\0\2" + header[62:], prefix[:-4] + b"KMCQ", b"XMCP" + prefix[4:],
                  prefix[:-72] + header[:12] + b"\1" + header[13:], prefix[:50], b""):
        write_database(room, "db", (wrong, suffix))
        assert isinstance(both_ways(room, names, ["union"], 900), str)
    write_database(room, "db", (prefix, suffix))
    assert isinstance(both_ways(room, names, ["union"], 900), bytes)
    # k-mers of another length, a line that is none, and a k-mer of other letters
    for wrong in (a_dump(random.Random(31), k + 1, 90), a_dump(random.Random(31), k + 1, 900), dump[:-1], dump.replace(b"\t", b" ", 1),
                  dump.replace(b"T", b"N"), dump.lower()):
        room.write("other.dump", wrong)
        assert isinstance(both_ways(room, names, ["union"], 900), str)
    with open(names[1], "wb"):
        os.remove(room.path("db.kmc_suf"))
    assert "No such file" in both_ways(room, names, ["union"], 900)


def a_large_database(room, name, rows):
    """A database of so many words of 21 letters, of which a range is longer than a pipe holds; and its two files."""
    table = b"".join(entry(rows * it // 4) for it in range(4))
    header = b"".join(it.to_bytes(4, "little") for it in (21, 0, 4, 1, 1, GREATEST)) + entry(rows) + bytes(32) + bytes([64, 0, 0, 0]) + b"KMCP"
    suffix = b"".join(b"%s\1\0\0\0" % it.to_bytes(5, "big") for it in range(rows))
    write_database(room, name, (b"KMCP" + table + header, b"KMCS" + suffix + b"KMCS"))
    return room.path(name + ".kmc"), b"KMCP" + table + header, b"KMCS" + suffix + b"KMCS"


def test_a_program_that_does_not_read_the_rows_is_not_waited_for(room):
    by_ranges_of(1 << 20)
    name, prefix, suffix = a_large_database(room, "large", 600_000)
    names = [name, room.path(room.write("other.dump", b"A" * 21 + b"\t1\n"))]
    assert len(suffix) // 4 > 5 << 18
    is_done, text = joined(room, names, ["union"])
    assert is_done and text.count(b"\n") == 600_000
    for wrong in (b"X" + prefix[1:], prefix[:4] + entry(1) + prefix[12:], prefix[:20] + entry(0) + prefix[28:]):
        write_database(room, "large", (wrong, suffix))
        assert joined(room, names, ["union"]) == (False, b"")
    write_database(room, "large", (prefix, b"X" + suffix[1:]))
    assert joined(room, names, ["union"]) == (False, b"")
    write_database(room, "large", (prefix, suffix))
    # programs that open nothing: those that fail, that are killed, and that end as if all was read
    for script in ("exit 1", "kill -KILL $$", "exit 0", "exec cat \"$9.kmc_pre\""):
        room.stand_in("#!/bin/sh\n%s\n" % script, "kmc_db")
        os.environ["FUTONCRANE_BIN"] = room.path("bin")
        assert joined(room, names, ["union"]) == (False, b""), script


def test_a_program_that_is_killed_is_told_and_what_it_had_is_gone(room):
    by_ranges_of(900)
    dump = a_dump(random.Random(32), 21, 200)
    names = [database_of(room, "db", dump, 21, 5), room.path(room.write("other.dump", a_dump(random.Random(33), 21, 50)))]
    wanted = one_by_one(room, names, ["union"])
    real = os.path.join(BIN, "kmc_db")
    for number in (0, 1, 2):
        # one range alone is not read to its end; then one program reads all
        room.stand_in("#!/bin/sh\ncase \"$*\" in */%d.0*) kill -KILL $$;; esac\nexec '%s' \"$@\"\n" % (number, real), "kmc_db")
        os.environ["FUTONCRANE_BIN"] = room.path("bin")
        assert joined(room, names, ["union"]) == (False, b"")
        assert answered(room, names, ["union"]) == wanted


def test_a_folder_that_takes_no_files_leaves_it_to_one_program(room):
    by_ranges_of(900)
    dump = a_dump(random.Random(34), 21, 200)
    name = database_of(room, "db", dump, 21, 5)
    wanted = collections.Counter((int(it.split(b"\t")[1]),) for it in dump.splitlines())
    before = tempfile.tempdir
    try:
        for folder, is_done in ((room.temporary, True), (room.path("none"), False)):
            tempfile.tempdir = folder
            with Children() as family:
                assert ranges.tallied([name], "kmc_db", ["histogram"], family, setting_of(3)) == (wanted if is_done else None)
    finally:
        tempfile.tempdir = before
    nothing_is_left(room)


def test_large_databases_are_read_by_ranges(room):
    real = program("kmc_db")
    rows = 720_000
    name, prefix, suffix = a_large_database(room, "large", rows)
    with open(room.path("large.dump"), "wb") as text:
        assert subprocess.run([real, "dump", room.path("large")], stdout=text, timeout=LONG, check=True).returncode == 0
    room.write("half.dump", b"".join(content(room.path("large.dump")).splitlines(keepends=True)[::2]))
    room.stand_in("#!/bin/sh\necho \"$*\" >> log\nexec '%s' \"$@\"\n" % real, "kmc_db")
    os.symlink(program("kmc_merge"), room.path("bin/kmc_merge"))
    for words in (["union", "large.kmc", "half.dump"], ["table", "half.dump", "large.kmc_pre"], ["histogram", "large.kmc"],
                  ["compare", "--first", "large.kmc_suf", "half.dump"]):
        wanted = room.run(words[0], "-q", "-t1", *words[1:])
        assert wanted.status == 0 and wanted.out, wanted
        room.write("log", "")
        room.run(words[0], "-q", "-t3", "-o", "answer", *words[1:])
        assert content(room.path("answer")) == wanted.out, words
        assert content(room.path("log")).count(b".futoncrane-") >= 2, words
    write_database(room, "large", (prefix, suffix[:4_500_004] + suffix[4_499_995:4_500_004] + suffix[4_500_013:]))
    for words in (["union", "-o", "none", "large.kmc", "half.dump"], ["histogram", "large.kmc"]):
        room.refuses(1, "large", "row", words=[words[0], "-q", "-t3", *words[1:]])
    assert not os.path.exists(room.path("none")) and not [it for it in os.listdir(room.folder) if it.startswith(".futoncrane-")]


def test_a_signal_ends_the_programs_of_ranges_and_removes_their_files(room):
    real = program("kmc_db")
    a_large_database(room, "large", 720_000)
    room.write("other.dump", b"A" * 21 + b"\t1\n")
    # they begin to work, and do not end
    room.stand_in("#!/bin/sh\ncase \"$*\" in *.futoncrane-*) echo > begun; exec sleep %d;; esac\nexec '%s' \"$@\"\n" % (LONG, real), "kmc_db")
    before = room.files()
    for number in (signal.SIGINT, signal.SIGTERM):
        for words in (["union", "-q", "-t3", "-o", "answer", "large.kmc", "other.dump"], ["histogram", "-q", "-t3", "large.kmc"]):
            child = started(room, words, start_new_session=True)
            wait_for(room, "begun")
            status, told, left = interrupted(child, number)
            os.remove(room.path("begun"))
            assert (status, told, left) == (128 + number, "", set()), (words, status, told, left)
            assert room.files() == before and not [it for it in os.listdir(room.folder) if it.startswith(".futoncrane-")]
            assert os.listdir(room.temporary) == []
