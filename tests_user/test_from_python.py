"""futoncrane.counts: the pairs of dumps and databases in Python, README's example, and each fault with its place."""
import gzip
import os
import re
import struct
import subprocess
import sys

from room import READS, TOP, content, need, plainly, program
from test_databases import packed, quietly
from test_programs import ended

import futoncrane


def pairs(room, name):
    return list(futoncrane.counts(room.path(name)))


def pairs_of(dump):
    """The same of a text."""
    return [(word, int(count)) for word, count in (line.split("\t") for line in dump.decode().splitlines())]


def refused(room, name, told):
    """That the file is refused by this text, which begins with the name of a file."""
    try:
        found = pairs(room, name)
    except futoncrane.Fault as fault:
        assert re.match(told, os.path.relpath(str(fault), room.folder)), (told, fault)
    else:
        raise AssertionError("%s is taken: %d pairs" % (told, len(found)))


def test_readmes_example_in_python_runs(room):
    program("kmc_db")
    text = content(os.path.join(TOP, "README.md")).decode().partition("## From Python")[2].partition("\n## ")[0]
    lines = [line[4:] for line in text.splitlines() if line.startswith("    ")]
    assert "import futoncrane" in lines[0] and 4 <= len(lines) <= 10, lines
    room.counts(b"", "count", "-k31", "-o", "reads.kmc", READS)
    wanted = sum(int(count) for word, count in pairs_of(plainly(content(READS), 31)) if word.count("G") + word.count("C") > 15)
    ran = subprocess.run([sys.executable, "-c", "\n".join(lines)], cwd=room.folder, env=dict(os.environ, PYTHONPATH=TOP), stdout=subprocess.PIPE, check=True)
    assert ran.stdout == b"%d\n" % wanted and wanted, (ran, wanted)


def test_pairs_of_dumps(room):
    dump = plainly(content(READS), 25, 1)
    room.write("dump", dump)
    room.write("dump.gz", gzip.compress(dump[:999]) + gzip.compress(b"") + gzip.compress(dump[999:]))
    room.write("empty", b"")
    assert pairs(room, "dump") == pairs(room, "dump.gz") == pairs_of(dump) and pairs(room, "empty") == []
    first = futoncrane.counts(room.path("dump"))
    assert next(first) == pairs_of(dump)[0] and next(first) == pairs_of(dump)[1]
    assert list(futoncrane.counts(os.fsencode(room.path("dump")))) == pairs_of(dump)


def test_pairs_of_databases(room):
    program("kmc_db")
    for k, words, cap in ((1, [], 255), (4, [], 300), (5, ["-prefix1"], 70000), (13, ["-prefix9"], 1 << 30), (25, ["-prefix5"], 255), (31, [], 255), (64, [], 255)):
        dump = plainly(content(READS) * (40 if k < 6 else 1), k, 1, 10**9, cap)
        packed(room, "db", dump, "-ci1", "-cs%d" % cap, "--force", *words)
        for name in ("db.kmc", "db.kmc_pre", "db.kmc_suf"):
            assert pairs(room, name) == pairs_of(dump), (k, name)
    packed(room, "none", b"", "-k25")
    assert pairs(room, "none.kmc") == []


def test_pairs_of_databases_of_kmc(room):
    need("kmc", "kmc_tools")
    os.mkdir(room.path("files"))
    for k in (14, 25, 48):
        quietly(room, "kmc", "-k%d" % k, "-t1", "-m2", "-ci1", "-r", "-fq", READS, "theirs", "files")
        quietly(room, "kmc_tools", "-t1", "transform", "theirs", "sort", "sorted")
        assert pairs(room, "sorted.kmc") == pairs_of(plainly(content(READS), k, 1)), k
    refused(room, "theirs.kmc", "theirs.kmc_pre: it is in the form of KMC 2 and 3, .*'kmc_tools transform .*theirs sort OUT'")


def test_dumps_at_fault_are_refused(room):
    packed_dump = gzip.compress(plainly(content(READS), 25))
    for text, told in ((b"AC\t1\nACG\t1\n", "line 2 has a word of another length"), (b"AC\t1\nAC\t1\n", "line 2: its k-mer does not come after"),
                       (b"AG\t1\nAC\t1\n", "line 2: its k-mer does not come after"), (b"AC\t0\n", "line 1 is no line"), (b"AC\t01\n", "line 1 is no line"),
                       (b"AC\t18446744073709551616\n", "line 1 is no line"), (b"AC\t1", "line 1 is no line"), (b"AC\t1\n\n", "line 2 is no line"),
                       (b"ac\t1\n", "line 1 is no line"), (b"AC 1\n", "line 1 is no line"), (b"A" * 65 + b"\t1\n", "line 1 is no line"), (b"AC\t1\r\n", "line 1 is no line"),
                       (packed_dump[:-3], "the gzip data ends early"), (packed_dump[:20], "the gzip data ends early"), (packed_dump + b"x", "the gzip data"),
                       (packed_dump[:99] + bytes(9) + packed_dump[108:], "the gzip data is damaged"), (b"BZh91AY", "it is packed by bzip2"),
                       (gzip.compress(b"AC\t1\nAA\t1\n"), "line 2: its k-mer")):
        room.write("dump", text)
        refused(room, "dump", "dump: " + told)
    room.write("dump", b"AC\t18446744073709551615\n")
    assert pairs(room, "dump") == [("AC", 2**64 - 1)]
    refused(room, "none", "none: No such file")
    refused(room, "tmp", "tmp: Is a directory")


def test_databases_at_fault_are_refused(room):
    program("kmc_db")
    prefix, suffix = packed(room, "db", b"ACGTACGTA\t1\nACGTACGTC\t300\nCCGTACGTC\t4\n", "-cs1000", "-prefix1")
    # three rows of two bytes for eight symbols and two for a count, behind a table of four entries: the first part A has two
    assert len(prefix) == 4 + 4 * 8 + 72 and len(suffix) == 4 + 3 * 4 + 4
    header, table = prefix[-72:], prefix[4:-72]

    def number(at, value, form="<I"):
        return prefix[:-72] + header[:at] + struct.pack(form, value) + header[at + struct.calcsize(form):]

    def entries(*them):
        return prefix[:4] + struct.pack("<4Q", *them) + header
    assert struct.unpack("<4Q", table) == (0, 2, 3, 3)
    for name, told, damaged in (
            ("kmc_pre", "it does not end as the file of a database does", prefix[:-1]), ("kmc_pre", "it does not end", b""), ("kmc_pre", "it does not end", prefix[-71:]),
            ("kmc_pre", "it has [0-9]* bytes", prefix[4:]), ("kmc_pre", "it has [0-9]* bytes", prefix[:4] + bytes(8) + prefix[4:]),
            ("kmc_pre", "it is no prefix file", b"KMCX" + prefix[4:]), ("kmc_pre", "the database is of an unknown version", number(60, 1)),
            ("kmc_pre", "it is in the form of KMC 2 and 3", number(60, 0x200)), ("kmc_pre", "the database is of an unknown header", number(64, 68)),
            ("kmc_pre", "the database is of an unknown mode", number(4, 1)), ("kmc_pre", "the header has no lengths", number(0, 65)),
            ("kmc_pre", "the header has no lengths", number(0, 8)), ("kmc_pre", "the header has no lengths", number(8, 0)),
            ("kmc_pre", "the header has no lengths", number(8, 5)), ("kmc_pre", "the header has no lengths", number(12, 0)),
            ("kmc_pre", "the header has no lengths", number(12, 16)), ("kmc_suf", "it has 20 bytes, and not 4 rows", number(24, 4, "<Q")),
            ("kmc_pre", "entry 0 of its table is 1", entries(1, 2, 3, 3)), ("kmc_pre", "entry 2 of its table is 1, behind 2", entries(0, 2, 1, 3)),
            ("kmc_pre", "entry 3 of its table is 4, behind 3 of 3 rows", entries(0, 2, 3, 4)),
            ("kmc_suf", "row 3 has a word that is not above the one before", entries(0, 1, 3, 3))):
        room.write("db.kmc_pre", damaged)
        refused(room, "db.kmc", "db[.]%s: %s" % (name, told))
    room.write("db.kmc_pre", prefix)
    for told, damaged in (("it has 19 bytes, and not 3 rows", suffix[:-1]), ("it has 4 bytes", b"KMCS"), ("it has 0 bytes", b""), ("it is no suffix file", b"KMCP" + suffix[4:]),
                          ("it is no suffix file", suffix[:-4] + b"KMCP"), ("row 1 has a count of 0", suffix[:6] + bytes(2) + suffix[8:]),
                          ("row 2 has a word that is not above the one before", suffix[:8] + suffix[4:8] + suffix[12:]),
                          ("row 2 has a word that is not above the one before", suffix[:8] + bytes(2) + suffix[10:])):
        room.write("db.kmc_suf", damaged)
        refused(room, "db.kmc", "db[.]kmc_suf: " + told)
    os.remove(room.path("db.kmc_suf"))
    refused(room, "db.kmc", "db.kmc_suf: No such file")
    os.remove(room.path("db.kmc_pre"))
    refused(room, "db.kmc", "db.kmc_pre: No such file")


def test_each_damaged_byte_is_seen_as_kmc_db_sees_it(room):
    program("kmc_db")
    sound = packed(room, "sound", b"AACCG\t1\nAACGG\t2\nCAAAA\t300\n", "-prefix1", "-ci1", "-cs1000")
    for which, end in enumerate(("kmc_pre", "kmc_suf")):
        text = sound[which]
        room.write("db.kmc_pre", sound[0])
        room.write("db.kmc_suf", sound[1])
        for place in range(len(text)):
            for new in (b"", text[place:place + 1] * 2, bytes([text[place] ^ 1]), bytes([text[place] ^ 128])):
                room.write("db." + end, text[:place] + new + text[place + 1:])
                status, dump, _ = ended(room, "kmc_db", "dump", "db")
                try:
                    found = pairs(room, "db.kmc")
                except futoncrane.Fault:
                    assert status == 1, (end, place, new, dump)
                else:
                    assert (status, pairs_of(dump)) == (0, found), (end, place, new, found)
