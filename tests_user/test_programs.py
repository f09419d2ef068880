"""The proved programs by their words and devices: what no contract can say of a process."""
import os
import subprocess

from room import LONG, MOST, READS, TOP, content, plainly, program

USAGE = b"usage: kmc [-fa|-fq|-fm] [-k<len>] [-p<len>] [-ci<n>] [-cx<n>] [-cs<n>] [-n<bins>] [-sp<n>] [-sr<n>] [-b]\n"
MERGE_USAGE = b"usage: kmc_merge [-ci<n>] [-cx<n>] [-cs<n>] a.dump b.dump ..\n"


def ended(room, name, *words, text=b"", out=subprocess.PIPE):
    """Status, standard output and standard error of a program."""
    ran = subprocess.run([program(name), *words], cwd=room.folder, input=text, stdout=out, stderr=subprocess.PIPE, timeout=LONG, check=False)
    return ran.returncode, ran.stdout, ran.stderr


def test_no_word_gives_the_defaults(room):
    assert ended(room, "kmc", text=content(READS)) == (0, plainly(content(READS), 25), b"")
    read = b"@r\nGATTACAGATTACAGATTACACCGGT\n+\n" + b"I" * 26 + b"\n"
    wanted = b"ACCGGTGTAATCTGTAATCTGTAAT\t2\nCCGGTGTAATCTGTAATCTGTAATC\t2\n"
    assert ended(room, "kmc", text=read + read) == (0, wanted, b"")


def test_options_of_each_kind_on_a_long_text(room):
    # the dump was made by bench/count_plainly.py
    stored = os.path.join(os.path.dirname(os.path.abspath(__file__)), "data", "stored_run")
    words = content(os.path.join(stored, "args")).decode().split()
    assert ended(room, "kmc", *words, text=content(os.path.join(stored, "stdin"))) == (0, content(os.path.join(stored, "stdout")), b"")


def test_what_is_refused_is_told_in_one_line(room):
    bad = b"@r\nACGTACGT\n-\nIIIIIIII\n"
    for words, text, status, told in ((["-k4"], bad, 1, b"line 3"), (["-fa"], bad, 1, b"line 1"), (["-k31", "-cs0"], content(READS), 2, b"-cs"),
                                      (["-k65"], content(READS), 2, b"-k")):
        found = ended(room, "kmc", *words, text=text)
        assert found[:2] == (status, b"") and told in found[2] and found[2].count(b"\n") == 1, (words, found)


def test_a_reader_that_has_enough_is_passed_over(room):
    # the dump is longer than a pipe holds
    wanted = plainly(content(READS), 31, 1)
    assert len(wanted) > 150000
    with open(READS, "rb") as reads, subprocess.Popen([program("kmc"), "-k31", "-ci1"], stdin=reads, stdout=subprocess.PIPE, stderr=subprocess.PIPE) as child:
        first = child.stdout.readline()
        child.stdout.close()
        told = child.stderr.read()
    assert (child.returncode, told, first) == (1, b"", wanted.splitlines(keepends=True)[0]), (child.returncode, told)


def test_a_word_that_is_not_utf8_is_wrong_usage(room):
    for words in ([b"\xff"], [b"-k5", b"\xff", b"-ci1"], [b"-k5\xff"], [b"--k", b"5\xff"]):
        assert ended(room, "kmc", *words, text=content(READS)) == (2, b"", USAGE), words


def test_each_of_many_words_counts(room):
    words = "--fq --k 21 --p 7 --n 31 --cx 1000 --sp 3 --sr 2 --b --ci 3 --cs 9 --".split()
    assert ended(room, "kmc", *words, text=content(READS)) == (0, plainly(content(READS), 21, 3, 1000, 9, "apart"), b"")


def test_a_full_device_is_a_failed_write(room):
    with open("/dev/full", "wb") as full:
        assert ended(room, "kmc", text=content(READS), out=full) == (1, None, b"kmc: write failed\n")
        room.write("a.dump", "AC\t2\nCA\t5\n")
        assert ended(room, "kmc_merge", "a.dump", out=full) == (1, None, b"kmc_merge: cannot write\n")


def test_help_and_the_version_are_shown(room):
    room.write("a.dump", "AC\t2\n")
    version = content(os.path.join(TOP, "VERSION")).strip() + b"\n"
    for name, *words in (("kmc_cut", "-slices2", "part"), ("kmc_list", "a.dump"), ("kmc_merge", "a.dump"), ("kmc_merge", "-cs0"), ("kmc_db", "union", "a.dump", "a.dump"),
                         ("kmc_db", "pack", "a"), ("kmc_db", "dump", "a"), ("kmc_db",)):
        for place in {0, len(words)}:
            status, out, told = ended(room, name, *words[:place], "--help", *words[place:])
            assert (status, told) == (0, b"") and out.startswith(name.encode() + b": ") and b"\nusage: " + name.encode() + b" " in out, (name, words, told)
            assert ended(room, name, *words[:place], "--version", *words[place:]) == (0, version, b""), (name, words)
            assert ended(room, name, "--version", *words[:place], "--help", *words[place:]) == (0, out, b""), (name, words)
        with open("/dev/full", "wb") as full:
            assert ended(room, name, *words, "--help", out=full) == (1, None, b""), (name, words)
    assert set(os.listdir(room.folder)) == {"a.dump", "tmp"}


def test_a_closed_pipe_is_not_told(room):
    room.write("a.dump", "AC\t2\nCA\t5\n")
    for name, *words in (("kmc",), ("kmc_merge", "a.dump")):
        reader, writer = os.pipe()
        os.close(reader)
        with os.fdopen(writer, "wb") as out:
            assert ended(room, name, *words, text=content(READS), out=out) == (1, None, b""), name


def test_a_merge_names_the_line_of_a_later_file(room):
    room.write("a.dump", "AAAC\t2\nAACC\t3\n")
    room.write("b.dump", "AAAA\t1\nAAAC\t2\nAACC\t3\nAACA\t1\n")
    status, _, told = ended(room, "kmc_merge", "-ci1", "a.dump", "b.dump")
    assert (status, told) == (1, b"kmc_merge: b.dump: line 4 has a word that is not above the one before\n"), told


def test_a_merge_names_the_file_that_cannot_be_opened(room):
    room.write("a.dump", "AC\t2\n")
    room.write("b.dump", "AC\t2\n")
    assert ended(room, "kmc_merge", "a.dump", "b.dump", "c.dump") == (1, b"", b"kmc_merge: c.dump: cannot be opened\n")


def test_a_merge_refuses_wrong_words(room):
    room.write("a.dump", "AC\t2\n")
    for words in ([], [b"a\xff.dump"], ["-ci1"], ["-ci1", "-ci1", "a.dump"], ["-ci1", "--ci=1", "a.dump"], ["-x", "a.dump"], ["-", "a.dump"],
                  ["-cs0", "-cx", "-ci1", "a.dump"], ["--ci", "a.dump"], ["-k31", "a.dump"], ["--sr=2", "a.dump"], ["-b", "a.dump"], ["-fa", "a.dump"],
                  ["-slices2", "a.dump"], ["--force", "a.dump"], *[["a.dump"] * 1001]):
        status, out, told = ended(room, "kmc_merge", *words)
        assert (status, out, told) == (2, b"", MERGE_USAGE), (words, told)


def test_a_merge_names_the_first_option_out_of_range(room):
    room.write("a.dump", "AC\t2\n")
    for words, name in ((["-cix"], b"-ci"), (["-cx%d" % (MOST + 1)], b"-cx"), (["-cs0"], b"-cs"), (["-cs0", "-cx-1", "-ci1"], b"-cx"), (["-csx", "-ci-1"], b"-ci"),
                        (["--cs", "0", "--cx=x"], b"-cx"), (["--ci="], b"-ci")):
        told = b"kmc_merge: value of " + name + b" is out of range\n"
        assert ended(room, "kmc_merge", *words, "a.dump") == (2, b"", told), words


def test_a_merge_takes_options_in_long_form_and_odd_names(room):
    names = [room.write(name, "AC\t2\n") for name in ("a b.dump", "ci=3", "k31", "=", "a-ci9", "\u00e9.dump")]
    for words, out in (([], b"AC\t12\n"), (["-ci13"], b""), (["--ci", "13"], b""), (["--ci=13"], b""), (["--cs=7", "--cx", "12"], b"AC\t7\n"), (["-cx11"], b"")):
        for place in (0, 3, 6):
            assert ended(room, "kmc_merge", *names[:place], *words, *names[place:]) == (0, out, b""), (words, place)
    assert ended(room, "kmc_merge", *["k31"] * 1000) == (0, b"AC\t255\n", b"")


def test_300_dumps_are_summed(room):
    lines = content(READS).splitlines(keepends=True)
    records = [b"".join(lines[place:place + 4]) for place in range(0, len(lines), 4)]
    names = []
    for part in range(300):
        status, dump, _ = ended(room, "kmc", "-ci1", "-cx%d" % MOST, "-cs%d" % MOST, text=b"".join(records[part::300]))
        assert status == 0
        names.append(room.write("part %d" % part, dump))
    assert ended(room, "kmc_merge", *names) == (0, plainly(content(READS), 25), b"")


def test_a_run_of_many_rounds_is_counted(room):
    reads = content(READS).splitlines()[1::4]
    # a round of one splitter has 65536 reads
    copies = 1 + 150000 // len(reads)
    once = [line.split(b"\t") for line in plainly(content(READS), 25, 1, MOST, MOST).splitlines()]
    wanted = b"".join(b"%b\t%d\n" % (word, int(count) * copies) for word, count in once)
    assert ended(room, "kmc", "-ci1", "-cx%d" % MOST, "-cs%d" % MOST, "-sp1", text=content(READS) * copies) == (0, wanted, b"")


def dealt(parts):
    """The example's records in so many texts."""
    lines = content(READS).splitlines(keepends=True)
    records = [b"".join(lines[place:place + 4]) for place in range(0, len(lines), 4)]
    return [b"".join(records[part::parts]) for part in range(parts)]


def test_merged_parts_are_the_dump_of_all(room):
    program("kmc_merge")
    whole = ("-ci1", "-cx%d" % MOST, "-cs%d" % MOST)
    for k in (25, 31, 32, 33, 64):
        wanted, everything = plainly(content(READS), k), plainly(content(READS), k, 1, MOST, MOST)
        for parts in (1, 2, 3, 7, 100):
            names = [room.write("dump-%d" % number, ended(room, "kmc", "-k%d" % k, *whole, text=text)[1]) for number, text in enumerate(dealt(parts))]
            names.append(room.write("dump-empty", b""))
            assert ended(room, "kmc_merge", *names) == (0, wanted, b""), (k, parts)
            assert ended(room, "kmc_merge", *whole, *names) == (0, everything, b""), (k, parts)


def test_a_merge_names_the_first_fault(room):
    program("kmc_merge")
    room.write("good", b"AC\t2\nCA\t5\n")
    for name, second in (("twice", b"AC\t5\n"), ("longer", b"CAA\t5\n"), ("zero", b"CA\t05\n"), ("none", b"CA\t0\n"), ("lower", b"Ca\t5\n"),
                         ("unended", b"CA\t5"), ("space", b"CA 5\n"), ("great", b"CA\t18446744073709551616\n")):
        status, _, told = ended(room, "kmc_merge", "good", room.write(name, b"AC\t2\n" + second))
        assert status == 1 and told.count(b"\n") == 1 and told.startswith(b"kmc_merge: %b: line 2 " % name.encode()), (name, told)
    # a sum above 2^64 - 1 stays there, and no limit lists it
    room.write("most", b"AC\t18446744073709551615\n")
    assert ended(room, "kmc_merge", "-ci1", "-cx%d" % MOST, "good", "most") == (0, b"CA\t5\n", b"")
