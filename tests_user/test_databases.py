"""kmc_db pack and dump: the database that KMC's tools make of the same counts, byte for byte, the dump that they list of one, and what is
refused."""
import collections
import os
import subprocess

from room import LONG, READS, content, need, plainly, program
from test_programs import ended

USAGE = b"usage: kmc_db pack [-k<len>] [-prefix<len>] [-ci<n>] [-cx<n>] [-cs<n>] [-b] [--force] <name> < a.dump\n"
DUMP_USAGE = b"usage: kmc_db dump <name> > a.dump\n"


def packed(room, name, dump, *words):
    """The two files of the database of a dump."""
    with open(room.path(room.write("given.dump", dump)), "rb") as text:
        ran = subprocess.run([program("kmc_db"), "pack", *words, name], cwd=room.folder, stdin=text, stdout=subprocess.PIPE, stderr=subprocess.PIPE, timeout=LONG, check=False)
    assert (ran.returncode, ran.stdout, ran.stderr) == (0, b"", b""), ran
    return content(room.path(name + ".kmc_pre")), content(room.path(name + ".kmc_suf"))


def write_database(room, name, files):
    """Writes these bytes as the two files of a database."""
    for end, file in zip(("kmc_pre", "kmc_suf"), files):
        room.write("%s.%s" % (name, end), file)


def prefix_of(k, rows, counter):
    """The length of the first part that makes the two files of so many rows the smallest."""
    fitting = [p for p in range(1, min(15, k) + 1) if (k - p) % 4 == 0]
    return min(fitting, key=lambda p: (rows * ((k - p) // 4 + counter) + 8 * 4**p, p))


def quietly(room, *words):
    subprocess.run(words, cwd=room.folder, stdout=subprocess.DEVNULL, stderr=subprocess.DEVNULL, check=True, timeout=LONG)


# the two files of three k-mers each, from the description of the form
TABLE_5 = "0000000000000000 0100000000000000 0200000000000000 0300000000000000"
TABLE_25 = "0000000000000000 0200000000000000 0300000000000000 0300000000000000"
HEADER = "%02x000000 00000000 02000000 01000000 01000000 00ca9a3b 0300000000000000" + " 00" * 28 + " 00000000 40000000 4b4d4350"


def test_worked_databases(room):
    program("kmc_db")
    rows = [(5, "ACGTA\t1\nCGTAA\t2\nGTAAC\t302\n", TABLE_5, "6c0100 b00200 c12e01"),
            (25, "ACGTAACCATTGCATGGACTTAGCA\t1\nATGCTAAGTCCATGCAATGGTTACG\t2\nCATGCTAAGTCCATGCAATGGTTAC\t302\n", TABLE_25,
             "6c14f93a1f240100 e70b5390ebc60200 39c2d4e43af12e01")]
    for k, dump, table, suffixes in rows:
        prefix, suffix = packed(room, "db%d" % k, dump.encode(), "-prefix1", "-ci1", "-cs1000")
        assert prefix == bytes.fromhex("4b4d4350" + table + HEADER % k), (k, prefix.hex())
        assert suffix == bytes.fromhex("4b4d4353" + suffixes + "4b4d4353"), (k, suffix.hex())


def sorted_by_kmc_tools(room, reads, k, least, cap, apart):
    """The two files of the sorted database that KMC's programs make of reads; of k-mers of at most 13 symbols kmc itself writes that form."""
    quietly(room, "kmc", "-k%d" % k, "-ci%d" % least, "-cs%d" % cap, "-fq", "-r", *(["-b"] if apart else []), reads, "theirs", "files")
    if k > 13:
        quietly(room, "kmc_tools", "transform", "theirs", "sort", "sorted")
    name = "sorted" if k > 13 else "theirs"
    return content(room.path(name + ".kmc_pre")), content(room.path(name + ".kmc_suf"))


def test_a_database_is_that_of_kmc_tools(room):
    program("kmc_db")
    need("kmc", "kmc_tools")
    os.mkdir(room.path("files"))
    for k, least, cap, apart in ((1, 1, 255, False), (2, 1, 255, True), (5, 1, 300, False), (9, 2, 70000, False), (13, 1, 255, True), (14, 1, 255, False),
                                 (17, 2, 300, False), (25, 1, 70000, False), (31, 2, 255, False), (31, 1, 255, True), (32, 1, 2**25, False),
                                 (33, 1, 255, False), (48, 1, 255, False), (61, 1, 255, False), (64, 1, 2**25, True)):
        dump = plainly(content(READS), k, least, 10**9, cap, *(["apart"] if apart else []))
        theirs = sorted_by_kmc_tools(room, READS, k, least, cap, apart)
        counter = next(n for n in (1, 2, 3, 4) if cap < 256**n or n == 4)
        prefix = int.from_bytes(theirs[0][-60:-56], "little")
        if k > 13:
            assert prefix == prefix_of(k, dump.count(b"\n"), counter), k
        ours = packed(room, "ours", dump, "-prefix%d" % prefix, "-ci%d" % least, "-cs%d" % cap, "--force", *(["-b"] if apart else []))
        assert ours == theirs, (k, apart)
        quietly(room, "kmc_tools", "transform", "ours", "dump", "-s", "listed")
        assert content(room.path("listed")) == dump, k


def test_databases_of_few_kmers_are_those_of_kmc_tools(room):
    program("kmc_db")
    need("kmc", "kmc_tools")
    os.mkdir(room.path("files"))
    for read, rows in (("ACGTACCATTGCATGGACTTAGCAA", 1), ("ACGTACCATTGCATGGACTTAGCAAT", 2), ("ACGT", 0)):
        reads = room.write("reads.fastq", "@r\n%s\n+\n%s\n" % (read, "I" * len(read)))
        dump = plainly(content(room.path(reads)), 25, 1, 10**9, 255)
        assert dump.count(b"\n") == rows
        theirs = sorted_by_kmc_tools(room, reads, 25, 1, 255, False)
        assert packed(room, "ours", dump, "-k25", "-prefix1", "-ci1", "--force") == theirs, read


def test_kmc_tools_work_on_databases(room):
    """histogram, simple and filter of kmc_tools take what pack writes."""
    program("kmc_db")
    need("kmc", "kmc_tools")
    os.mkdir(room.path("files"))
    lines = content(READS).splitlines(keepends=True)
    half = len(lines) // 8 * 4
    texts = {"first": b"".join(lines[:half + 80]), "second": b"".join(lines[half - 80:])}
    counts = {}
    for name, text in texts.items():
        dump = plainly(text, 21, 1, 10**9, 255)
        packed(room, name, dump, "-ci1")
        counts[name] = {word: int(count) for word, count in (line.split(b"\t") for line in dump.splitlines())}
    first, second = counts["first"], counts["second"]
    quietly(room, "kmc_tools", "transform", "first", "histogram", "numbers", "-ci1", "-cx255")
    numbers = dict(map(int, line.split()) for line in content(room.path("numbers")).splitlines())
    assert {count: number for count, number in numbers.items() if number} == dict(collections.Counter(first.values()))
    quietly(room, "kmc_tools", "simple", "first", "second", "intersect", "both", "union", "either", "kmers_subtract", "alone")
    wanted = {"both": {word: min(first[word], second[word]) for word in first if word in second},
              "either": {word: min(255, first.get(word, 0) + second.get(word, 0)) for word in {*first, *second}},
              "alone": {word: count for word, count in first.items() if word not in second}}
    for name, found in wanted.items():
        assert found
        quietly(room, "kmc_tools", "transform", name, "dump", "-s", "listed")
        assert content(room.path("listed")) == b"".join(b"%s\t%d\n" % it for it in sorted(found.items())), name
    room.write("reads.fastq", texts["second"])
    room.write("first.fastq", texts["first"])
    sorted_by_kmc_tools(room, "first.fastq", 21, 1, 255, False)
    for name in ("first", "sorted"):
        quietly(room, "kmc_tools", "filter", name, "-ci2", "reads.fastq", "-fq", "-ci5", name + ".kept", "-fq")
    assert content(room.path("first.kept")) == content(room.path("sorted.kept")) != b""


def test_databases_of_usual_first_parts_are_read(room):
    program("kmc_db")
    need("kmc_tools")
    for k, apart in ((1, False), (3, False), (5, False), (13, True), (26, False), (31, True), (64, False)):
        dump = plainly(content(READS), k, 1, 10**9, 255, *(["apart"] if apart else []))
        packed(room, "ours", dump, "-ci1", "--force", *(["-b"] if apart else []))
        quietly(room, "kmc_tools", "transform", "ours", "dump", "-s", "listed")
        assert content(room.path("listed")) == dump, k


def test_a_database_is_refused(room):
    program("kmc_db")
    room.write("a.dump", "AC\t2\nCA\t300\n")
    room.write("there.kmc_pre", "x")
    for words in ([], ["-k31"], ["-k65", "a"], ["-k2", "-k2", "a"], ["-prefix16", "a"], ["a", "b"], ["-p2", "a"], ["-ci", "a"]):
        assert ended(room, "kmc_db", "pack", *words) == (2, b"", USAGE), words
    with open(room.path("a.dump"), "rb") as text:
        assert ended(room, "kmc_db", "pack", "there", text=text.read()) == (1, b"", b"kmc_db: there.kmc_pre: cannot be made\n")
        assert content(room.path("there.kmc_pre")) == b"x"
    for text, words, told in ((b"AC\t2\nCA\t300\n", [], b"standard input: the count of line 2 does not fit its bytes"),
                              (b"AC\t2\nAA\t1\n", [], b"standard input: line 2"), (b"", [], b"standard input: has no line to tell the length of words"),
                              (b"AC\t2\n", ["-k3"], b"standard input: line 1"), (b"AC\t2\n", ["-prefix1"], b"words of 2 symbols have no such first part")):
        status, out, err = ended(room, "kmc_db", "pack", "--force", *words, "made", text=text)
        assert (status, out) == (1, b"") and err.startswith(b"kmc_db: " + told) and err.count(b"\n") == 1, (words, err)
        assert not content(room.path("made.kmc_pre")).endswith(b"KMCP") or len(content(room.path("made.kmc_pre"))) < 80
    assert packed(room, "none", b"", "-k25")[1] == b"KMCSKMCS"


def dumped(room, name):
    """The dump of a database."""
    status, out, err = ended(room, "kmc_db", "dump", name)
    assert (status, err) == (0, b""), (status, err)
    return out


def listed(prefix, suffix):
    """A plain reading of a sorted database, by its description: the text of its dump, or none where it is at fault."""
    if len(prefix) < 76 or prefix[-4:] != b"KMCP" or prefix[:4] != b"KMCP" or suffix[:4] != b"KMCS" or suffix[-4:] != b"KMCS":
        return None
    k, mode, counter, first = (int.from_bytes(prefix[i - 72 + len(prefix):][:4], "little") for i in (0, 4, 8, 12))
    rows, version, size = (int.from_bytes(prefix[i - 72 + len(prefix):][:n], "little") for i, n in ((24, 8), (60, 4), (64, 4)))
    if (version, size, mode) != (0, 64, 0) or not 1 <= k <= 64 or not 1 <= counter <= 4 or not 1 <= first <= min(k, 15) or (k - first) % 4:
        return None
    row = (k - first) // 4 + counter
    if len(prefix) != 76 + 8 * 4**first or len(suffix) != 8 + rows * row:
        return None
    table = [int.from_bytes(prefix[4 + 8 * i:12 + 8 * i], "little") for i in range(4**first)] + [rows]
    if table[0] or table != sorted(table):
        return None
    lines, before = [], -1
    for part in range(4**first):
        for at in range(table[part], table[part + 1]):
            bytes_ = suffix[4 + at * row:4 + (at + 1) * row]
            word = int.from_bytes(part.to_bytes(4, "big") + bytes_[:row - counter], "big")
            count = int.from_bytes(bytes_[row - counter:], "little")
            if word <= before or not count:
                return None
            before = word
            lines.append("".join("ACGT"[word >> 2 * i & 3] for i in reversed(range(k))) + "\t%d\n" % count)
    return "".join(lines).encode()


def test_a_sorted_database_is_dumped_as_kmc_tools_list_it(room):
    program("kmc_db")
    need("kmc", "kmc_tools", "kmc_dump")
    os.mkdir(room.path("files"))
    for k, least, cap, apart in ((1, 1, 255, False), (9, 1, 255, False), (13, 1, 300, False), (14, 1, 255, False), (25, 2, 70000, False), (31, 1, 255, True),
                                 (48, 1, 2**25, False), (64, 1, 255, False), (64, 1, 255, True)):
        quietly(room, "kmc", "-k%d" % k, "-ci%d" % least, "-cs%d" % cap, "-fq", "-r", *(["-b"] if apart else []), READS, "theirs", "files")
        if k <= 13:  # kmc itself writes the sorted form
            name = "theirs"
        else:
            quietly(room, "kmc_tools", "transform", "theirs", "sort", "sorted")
            name = "sorted"
        ours = dumped(room, name)
        quietly(room, "kmc_tools", "transform", name, "dump", "-s", "listed")
        assert ours == content(room.path("listed")), k
        quietly(room, "kmc_dump", name, "plainly")
        assert ours == content(room.path("plainly")), k
        assert ours == plainly(content(READS), k, least, 10**9, cap, *(["apart"] if apart else [])), k


def test_a_database_of_the_newer_form_is_refused(room):
    program("kmc_db")
    need("kmc")
    os.mkdir(room.path("files"))
    quietly(room, "kmc", "-k25", "-fq", "-r", READS, "theirs", "files")
    told = b"kmc_db: theirs: the database is in the form of KMC 2 and 3: kmc_tools transform NAME sort OTHER writes it in this one\n"
    assert ended(room, "kmc_db", "dump", "theirs") == (1, b"", told)


def test_what_was_packed_is_dumped(room):
    program("kmc_db")
    for k, least, cap, words in ((1, 1, 255, []), (4, 1, 2**17, []), (13, 1, 255, ["-prefix1"]), (31, 1, 255, []), (33, 2, 10, ["-prefix9"]), (64, 1, 255, ["-b"])):
        dump = plainly(content(READS), k, least, 10**9, cap, *(["apart"] if "-b" in words else []))
        packed(room, "ours", dump, "-ci%d" % least, "-cs%d" % cap, "--force", *words)
        assert dumped(room, "ours") == dump, k
    packed(room, "none", b"", "-k25")
    assert dumped(room, "none") == b""


def test_each_damaged_byte_is_told_or_read_as_it_stands(room):
    program("kmc_db")
    for k, dump, words in ((5, b"AACCG\t1\nAACGG\t2\nCAAAA\t3\n", ["-prefix1", "-cs255"]), (1, b"A\t7\nT\t300\n", ["-cs300"]),
                           (6, b"ACGTAC\t1\nGGGGGG\t70000\n", ["-prefix2", "-cs70000"])):
        sound = packed(room, "sound%d" % k, dump, "-ci1", *words)
        assert listed(*sound) == dump
        for which, end in ((0, "kmc_pre"), (1, "kmc_suf")):
            text = sound[which]
            changes = [text[:i] + new + text[i + 1:] for i in range(len(text))
                       for new in (b"", text[i:i + 1] * 2, bytes([text[i] ^ 1]), bytes([text[i] + 1 & 255]), bytes([text[i] - 1 & 255]), bytes([text[i] ^ 128]))]
            for changed in changes:
                files = [*sound]
                files[which] = changed
                write_database(room, "damaged", files)
                status, out, err = ended(room, "kmc_db", "dump", "damaged")
                wanted = listed(*files)
                if wanted is None:
                    assert status == 1 and err.startswith(b"kmc_db: damaged") and err.count(b"\n") == 1, (end, changed, status, out, err)
                else:
                    assert (status, out, err) == (0, wanted, b""), (end, changed, status, out, err)


def test_a_dump_is_refused(room):
    program("kmc_db")
    for words in ([], ["a", "b"], ["-k3"], ["-ci2", "a"]):
        assert ended(room, "kmc_db", "dump", *words) == (2, b"", DUMP_USAGE), words
    assert ended(room, "kmc_db", "dump", "none") == (1, b"", b"kmc_db: none.kmc_pre: cannot be opened\n")
    packed(room, "there", b"AC\t2\n")
    os.remove(room.path("there.kmc_suf"))
    assert ended(room, "kmc_db", "dump", "there") == (1, b"", b"kmc_db: there.kmc_suf: cannot be opened\n")
