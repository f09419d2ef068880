"""Slices: what is cut, listed slice by slice and merged is the dump of one run; and nothing of it is lost or left."""
import gzip
import os
import random
import signal
import subprocess
import sys
import time

from room import COMMAND, LONG, MOST, READS, alive, content, descendants, plainly, program, wait_for
from test_writing import small_disk

WHOLE = ["-ci1", "-cx%d" % MOST, "-cs%d" % MOST]
LENGTHS = (1, 25, 31, 32, 33, 64)


def need_programs():
    for name in ("kmc", "kmc_cut", "kmc_list", "kmc_merge"):
        program(name)


def dealt(text, parts):
    """The records of a text in so many parts."""
    lines = text.splitlines(keepends=True)
    records = [b"".join(lines[place:place + 4]) for place in range(0, len(lines), 4)]
    return [b"".join(records[part::parts]) for part in range(parts)]


def ran(room, name, *words, text=b""):
    """What a program writes, whose status must be 0."""
    done = subprocess.run([program(name), *words], cwd=room.folder, input=text, stdout=subprocess.PIPE, stderr=subprocess.PIPE, timeout=LONG, check=False)
    assert (done.returncode, done.stderr) == (0, b""), done
    return done.stdout


def in_slices(room, texts, k, slices, *limits):
    """The dump of the parts by the three programs."""
    for number, text in enumerate(texts):
        assert ran(room, "kmc_cut", "-k%d" % k, "-slices%d" % slices, "--force", "part%d" % number, text=text) == b""
    dumps = []
    for number in range(slices):
        files = ["part%d.%d" % (part, number) for part in range(len(texts))]
        dumps.append(room.write("dump.%d" % number, ran(room, "kmc_list", *limits, *files)))
    return ran(room, "kmc_merge", *WHOLE, *dumps)


def test_parts_in_slices_are_one_run(room):
    need_programs()
    text = content(READS)
    for k in LENGTHS:
        greatest = 1000 if k > 1 else 10**6
        wanted = plainly(text, k, 3, greatest, 200)
        assert wanted
        for parts in (1, 2, 7):
            for slices in (1, 2, 3):
                assert in_slices(room, dealt(text, parts), k, slices, "-ci3", "-cx%d" % greatest, "-cs200") == wanted, (k, parts, slices)


def test_one_cut_is_listed_with_any_limits_and_strands(room):
    need_programs()
    texts = dealt(content(READS), 2)
    for number, text in enumerate(texts):
        ran(room, "kmc_cut", "--k", "31", "--slices", "3", "part%d" % number, text=text)
    for limits, wanted in ((WHOLE, plainly(content(READS), 31, 1, MOST, MOST)), (["-ci4", "-b"], plainly(content(READS), 31, 4, 10**9, 255, "apart")),
                           (["--ci", "2", "--cs=9"], plainly(content(READS), 31, 2, 10**9, 9))):
        dumps = [room.write("dump.%d" % it, ran(room, "kmc_list", *limits, "part0.%d" % it, "part1.%d" % it)) for it in range(3)]
        assert ran(room, "kmc_merge", *WHOLE, *dumps) == wanted, limits


def test_words_of_the_programs(room):
    need_programs()
    for name, words in (("kmc_cut", ["-slices0", "a"]), ("kmc_cut", ["-slices1001", "a"]), ("kmc_cut", ["-n3", "-slices4", "a"]), ("kmc_cut", ["-slices2"]),
                        ("kmc_cut", ["a"]), ("kmc_cut", ["-slices2", "-ci3", "a"]), ("kmc_cut", ["-k65", "-slices2", "a"]), ("kmc_list", []),
                        ("kmc_list", ["-k31", "a"]), ("kmc_list", ["-cs0", "a"]), ("kmc_list", ["-b", "-b", "a"])):
        done = subprocess.run([program(name), *words], cwd=room.folder, input=b"", stdout=subprocess.PIPE, stderr=subprocess.PIPE, check=False)
        assert done.returncode == 2 and done.stdout == b"" and done.stderr.count(b"\n") == 1, (name, words, done)
        assert done.stderr.startswith((b"usage: " + name.encode(), name.encode() + b": ")), done
    assert set(os.listdir(room.folder)) == {"tmp"}


def test_100000_names_are_one_command_line(room):
    need_programs()
    names = list(map(str, range(100001)))
    for more, status, told in ((0, 1, b"kmc_list: 0: cannot be opened\n"), (1, 2, b"usage: kmc_list")):
        done = subprocess.run([program("kmc_list"), *names[:100000 + more]], cwd=room.folder, stdin=subprocess.DEVNULL, stdout=subprocess.PIPE,
                              stderr=subprocess.PIPE, check=False)
        assert (done.returncode, done.stdout) == (status, b"") and done.stderr.startswith(told), done


def test_a_list_tells_a_full_device_and_no_closed_pipe(room):
    need_programs()
    ran(room, "kmc_cut", "-slices2", "a", text=content(READS))
    reader, writer = os.pipe()
    os.close(reader)
    for out, told in ((open("/dev/full", "wb"), b"kmc_list: cannot write\n"), (os.fdopen(writer, "wb"), b"")):
        with out:
            done = subprocess.run([program("kmc_list"), "a.0"], cwd=room.folder, stdin=subprocess.DEVNULL, stdout=out, stderr=subprocess.PIPE, check=False)
        assert (done.returncode, done.stderr) == (1, told), done


def test_files_that_exist_are_not_written_over(room):
    need_programs()
    room.write("a.0", "mine")
    done = subprocess.run([program("kmc_cut"), "-slices3", "a"], cwd=room.folder, input=content(READS), stderr=subprocess.PIPE, check=False)
    assert done.returncode == 1 and content(room.path("a.0")) == b"mine" and done.stderr.startswith(b"kmc_cut: "), done
    room.refuses(1, "crane: a.0: it is there already", "--force", words=["cut", "--slices", "3", "-o", "a", READS])
    ran(room, "kmc_cut", "-slices3", "--force", "a", text=content(READS))
    assert content(room.path("a.0"))[:8] == b"KMCSLICE"
    room.counts(b"", "cut", "--slices", "3", "--force", "-o", "a", READS)
    ran(room, "kmc_list", "a.0")


def test_the_steps_by_themselves(room):
    need_programs()
    texts = dealt(content(READS), 2)
    room.write("first lane.fastq", texts[0])
    room.write("second.gz", gzip.compress(texts[1]))
    room.counts(b"", "cut", "-k", "25", "--slices", "3", "-o", "both", "first lane.fastq", "second.gz")
    room.counts(b"", "cut", "-k25", "--slices=3", "-o", "first", "-", text=texts[0])
    room.counts(b"", "cut", "-k25", "--slices=3", "-o", "second", "second.gz")
    wanted = plainly(content(READS), 25, 2, MOST)
    for number in range(3):
        room.counts(b"", "list", "-o", "both.dump.%d" % number, "both.%d" % number)
        room.write("packed.gz", gzip.compress(content(room.path("second.%d" % number))))
        room.counts(content(room.path("both.dump.%d" % number)), "list", "-t", "1", "first.%d" % number, "packed.gz")
    room.counts(wanted, "merge", "--min", "1", "--cap", "none", *("both.dump.%d" % number for number in range(3)))
    assert set(os.listdir(room.folder)) == {"tmp", "packed.gz", "first lane.fastq", "second.gz"} | {
        "%s.%d" % (name, number) for name in ("both", "first", "second", "both.dump") for number in range(3)} | {
        "both.dump.%d.json" % number for number in range(3)}


def test_count_in_slices_is_one_run(room):
    need_programs()
    text = content(READS)
    room.write("a.gz", gzip.compress(text))
    for number, k in enumerate(LENGTHS):
        slices = str((1, 2, 3)[number % 3])
        room.counts(plainly(text, k, 2, MOST), "count", "-k%d" % k, "--slices", slices, "--quiet", ("a.gz", READS)[number % 2])
        room.counts(plainly(text, k, 2, MOST, 255, "apart"), "count", "-k%d" % k, "--forward", "--slices", slices, "-q", READS)
    told = room.run("count", "-k25", "--slices", "3", READS)
    assert told.status == 0 and told.out == plainly(text, 25, 2, MOST), told
    assert told.err.startswith("futoncrane: 3 slices; files in ") and told.err.count("\n") == 2, told
    room.counts(plainly(text, 25, 2, MOST), "count", "-k25", "--slices", "100", "--quiet", text=text)
    room.counts(b"", "count", "-k25", "--slices", "2", "--quiet", "-o", "dump.gz", "a.gz")
    assert gzip.decompress(content(room.path("dump.gz"))) == plainly(text, 25, 2, MOST)
    assert set(os.listdir(room.folder)) == {"tmp", "a.gz", "dump.gz", "dump.gz.json"}
    room.refuses(2, "-n says 2 bins", words=["count", "--slices", "3", "-n2", READS])


def test_histograms_of_slices_add_up(room):
    """The dumps of slices are read while they are listed: nothing is merged."""
    need_programs()
    stand_in(room, "kmc_merge", "#!/bin/sh\nexit 1\n")
    for words in (["histogram"], ["histogram", "--forward"], ["size"], ["genomescope", "-k", "25"]):
        one = room.run(*words, "--quiet", READS)
        assert one.status == 0 and one.out, one
        for slices in ("1", "2", "5"):
            room.counts(one.out, *words, "--slices", slices, "--quiet", READS)
    told = room.run("histogram", "--slices", "3", READS)
    assert told.status == 0 and "the dumps of slices" not in told.err, told
    stand_in(room, "kmc_list", "#!/bin/sh\nprintf 'ACGTACGTACGTACGTACGTA\\t3\\n'; exit 3\n")
    room.refuses(1, "kmc_list ended with status 3", words=["histogram", "--slices", "2", "--quiet", READS])


def refused(room, name, *files):
    """That kmc_list and `futoncrane list` refuse these files, write nothing, and name this one."""
    done = subprocess.run([program("kmc_list"), *files], cwd=room.folder, stdin=subprocess.DEVNULL, stdout=subprocess.PIPE, stderr=subprocess.PIPE, check=False)
    assert done.returncode == 1 and done.stdout == b"" and done.stderr.count(b"\n") == 1, (files, done)
    assert done.stderr.decode().startswith("kmc_list: %s: " % name), done
    return done.stderr.decode()


def small_cut(room, prefix, k="-k9", slices="-slices2", reads=6):
    """Files of a few reads."""
    text = b"".join(content(READS).splitlines(keepends=True)[:4 * reads])
    ran(room, "kmc_cut", k, slices, "-n8", "--force", prefix, text=text)


def test_a_faulty_file_is_refused(room):
    need_programs()
    small_cut(room, "a")
    small_cut(room, "b", "-k10")
    small_cut(room, "c", "-k9", "-slices3")
    source = random.Random(3)
    whole = content(room.path("a.0"))
    for place in sorted({0, 1, 27, 28, 29, len(whole) - 1, len(whole) - 16, *(source.randrange(len(whole)) for _ in range(25))}):
        room.write("short", whole[:place])
        refused(room, "short", "a.0", "short")
        room.write("changed", whole[:place] + bytes([whole[place] ^ 1 << source.randrange(8)]) + whole[place + 1:])
        refused(room, "changed", "a.0", "changed")
    room.write("longer", whole + b"\0")
    for name in ("longer", "a.1", "b.0", "c.0", "none"):
        refused(room, name, "a.0", name)
    for name, others in (("longer", {}), ("a.1", {}), ("none", {})):
        room.refuses(1, name + ": ", words=["list", "a.0", name, "-o", "out"], **others)
    room.write("packed.gz", gzip.compress(whole[:-1]))
    room.refuses(1, "packed.gz: ", words=["list", "a.0", "packed.gz", "-o", "out"])
    room.write("cut.gz", gzip.compress(whole)[:-20])
    room.refuses(1, "cut.gz: ", words=["list", "a.0", "cut.gz", "-o", "out"])


def test_a_file_that_is_named_twice(room):
    need_programs()
    small_cut(room, "a", slices="-slices1")
    os.link(room.path("a.0"), room.path("same"))
    for name in ("a.0", "./a.0", "same"):
        room.refuses(2, "%s stands twice" % name, words=["list", "a.0", name])
    text = b"".join(content(READS).splitlines(keepends=True)[:24])
    assert ran(room, "kmc_list", "-ci1", "a.0", "a.0") == plainly(text + text, 9, 1)


def stand_in(room, name, text):
    """A program of our own in the place of one, and the proved ones beside it."""
    os.makedirs(room.path("bin"), exist_ok=True)
    for it in ("kmc", "kmc_cut", "kmc_list", "kmc_merge"):
        if not os.path.lexists(room.path("bin/" + it)):
            os.symlink(program(it), room.path("bin/" + it))
    if os.path.lexists(room.path("bin/" + name)):
        os.unlink(room.path("bin/" + name))
    room.stand_in(text, name)


def test_the_memory_chooses_slices(room):
    need_programs()
    with open(room.path("big.fastq"), "wb") as file:
        file.write(content(READS))
        file.truncate(2 << 30)
    stand_in(room, "kmc", "#!/bin/sh\nexit 1\n")
    stand_in(room, "kmc_cut", "#!" + sys.executable + "\nimport sys\nopen('told', 'w').write(' '.join(sys.argv[1:]))\nslices = int(sys.argv[-2][7:])\n"
             "for it in range(slices):\n    open('%s.%d' % (sys.argv[-1], it), 'w')\n")
    stand_in(room, "kmc_list", "#!/bin/sh\nexit 0\n")
    done = room.run("count", "-k31", "--memory", "200M", "--threads", "4", "big.fastq", "-o", "dump")
    assert done.status == 0 and "one run would take " in done.err and " slices; files in " in done.err and "GB" in done.err, done
    slices = int(content(room.path("told")).split()[-2][len("-slices"):])
    assert 4 <= slices <= 16 and "%d slices" % slices in done.err, (slices, done)
    assert content(room.path("dump")) == b"" and set(os.listdir(room.folder)) == {"tmp", "bin", "told", "big.fastq", "dump", "dump.json"}, os.listdir(room.folder)


def hanging(room, name):
    """A program that says that it has begun, and hangs."""
    stand_in(room, name, "#!/bin/sh\n: > begun; exec sleep 10000\n")


def test_signals_and_killed_programs_leave_nothing(room):
    need_programs()
    for name in ("kmc_cut", "kmc_list", "kmc_merge"):
        for number, killed in ((signal.SIGINT, False), (signal.SIGTERM, False), (signal.SIGKILL, True)):
            hanging(room, name)
            before = set(os.listdir(room.folder))
            child = subprocess.Popen([*COMMAND, "count", "--quiet", "--slices", "2", READS, "-o", "dump"], cwd=room.folder, env=room.environment,
                                     stdout=subprocess.DEVNULL, stderr=subprocess.PIPE)
            wait_for(room, "begun")
            family = descendants(child.pid)
            if killed:
                for it, _ in family:
                    os.kill(it, number)
            else:
                child.send_signal(number)
            told = child.communicate(timeout=LONG)[1].decode()
            assert child.returncode == (1 if killed else 128 + number), (name, number, child.returncode, told)
            assert told.startswith("futoncrane: %s was ended by SIGKILL" % name) if killed else told == "", told
            assert alive(family) == set()
            os.remove(room.path("begun"))
            assert set(os.listdir(room.folder)) == before, set(os.listdir(room.folder)) - before
        os.unlink(room.path("bin/" + name))


def test_control_c_at_random_moments(room):
    need_programs()
    room.write("reads.gz", gzip.compress(content(READS) * 40, 1))
    words = ["count", "--quiet", "--slices", "3", "reads.gz", "-o", "dump"]
    begun = time.monotonic()
    assert room.run(*words).status == 0
    seconds, source = time.monotonic() - begun, random.Random(11)
    for _ in range(10):
        for name in ("dump", "dump.json"):
            if os.path.exists(room.path(name)):
                os.remove(room.path(name))
        child = subprocess.Popen([*COMMAND, *words], cwd=room.folder, env=room.environment, stderr=subprocess.DEVNULL)
        time.sleep(source.uniform(0.2, 0.95) * seconds)
        family = descendants(child.pid)
        child.send_signal(signal.SIGINT)
        status = child.wait(timeout=LONG)
        assert status in (0, 130, -signal.SIGINT) and alive(family) == set(), (status, alive(family))
        assert set(os.listdir(room.folder)) - {"dump", "dump.json"} == {"tmp", "reads.gz"} and ("dump" in os.listdir(room.folder)) == (status == 0)


def test_a_full_disk_is_told(room):
    need_programs()
    with small_disk(room, 1 << 14):
        with subprocess.Popen(["cat", READS, READS], stdout=subprocess.PIPE) as cat:
            done = room.run("count", "--quiet", "--slices", "2", "--directory", "disk", source=cat.stdout)
        assert done.status == 1 and done.out == b"" and done.err.count("\n") == 1 and "disk" in done.err and "cannot be written" in done.err, done
        assert os.listdir(room.path("disk")) == []
        room.refuses(1, "disk: the slices are estimated to take", words=["count", "--slices", "2", "--directory", "disk", READS])
        room.refuses(1, "disk: the slices are estimated to take", words=["cut", "--slices", "2", "-o", "disk/a", READS])
    room.refuses(1, "none: there is no such folder", words=["count", "--slices", "2", "--directory", "none", READS])


def test_an_earlier_run_is_gone_on_with(room):
    need_programs()
    os.mkdir(room.path("disk"))
    room.write("reads", content(READS))
    words = ["count", "-k25", "--slices", "3", "--directory", "disk", "--keep", "reads", "-o", "dump"]
    stand_in(room, "kmc_list", "#!/bin/sh\ncase $* in *share-0.1*) : > begun; exec sleep 10000 ;; *) exec '%s' \"$@\" ;; esac\n" % program("kmc_list"))
    child = subprocess.Popen([*COMMAND, *words], cwd=room.folder, env=room.environment, stderr=subprocess.PIPE)
    wait_for(room, "begun")
    wait_for(room, "disk/futoncrane-slices/dump-2-%d-255.0" % MOST)
    other = room.run(*words)
    assert other.status == 1 and "another run uses it" in other.err, other
    child.send_signal(signal.SIGINT)
    child.communicate(timeout=LONG)
    # the records of three slices, their note, and the dump of the first, and of the third if that was listed meanwhile
    assert child.returncode == 130 and len(os.listdir(room.path("disk/futoncrane-slices"))) in (5, 6), os.listdir(room.path("disk/futoncrane-slices"))
    # nothing is cut again, and the first slice is not listed again
    stand_in(room, "kmc_cut", "#!/bin/sh\nexit 1\n")
    stand_in(room, "kmc_list", "#!/bin/sh\ncase $* in *share-0.0*) exit 1 ;; *) exec '%s' \"$@\" ;; esac\n" % program("kmc_list"))
    done = room.run(*words)
    assert done.status == 0 and "3 slices stand in " in done.err and content(room.path("dump")) == plainly(content(READS), 25, 2, MOST), done
    assert os.listdir(room.path("disk")) == []


def test_other_reads_are_cut_again(room):
    need_programs()
    os.mkdir(room.path("disk"))
    text = content(READS)
    room.write("reads", text)
    words = ["count", "-k25", "--slices", "2", "--directory", "disk", "--keep", "reads", "-o", "dump"]
    stand_in(room, "kmc_list", "#!/bin/sh\nexit 1\n")
    assert room.run(*words).status == 1 and os.listdir(room.path("disk")) == ["futoncrane-slices"]
    room.environment["FUTONCRANE_BIN"] = os.path.dirname(program("kmc"))
    room.write("reads", text + text)
    done = room.run(*words)
    assert done.status == 0 and " slices; files in " in done.err and content(room.path("dump")) == plainly(text + text, 25, 2, MOST), done
    assert os.listdir(room.path("disk")) == []


def test_dumps_are_merged_in_levels(room):
    program("kmc_merge")
    text = content(READS)
    # a dump for each read in turn, and as many as make 1,001; and some where few files may be open
    dumps = [plainly(it, 25, 1, MOST, MOST) for it in dealt(text, 41)]
    names = [room.write("dump %d" % number, dumps[number] if number < len(dumps) else b"") for number in range(1001)]
    wanted = plainly(text, 25)
    room.counts(wanted, "merge", *names)
    room.counts(b"", "merge", "-o", "whole.gz", *names)
    assert gzip.decompress(content(room.path("whole.gz"))) == wanted
    assert not room.files() - {room.path(it) for it in (*names, "whole.gz")}
    packed = [room.write("%d.gz" % number, gzip.compress(it)) for number, it in enumerate(dumps)]
    import resource
    room.counts(wanted, "merge", *packed, "dump 900", preexec_fn=lambda: resource.setrlimit(resource.RLIMIT_NOFILE, (50, 50)))
    room.counts(wanted, "merge", *names[:41], preexec_fn=lambda: resource.setrlimit(resource.RLIMIT_NOFILE, (50, 50)))
    assert os.listdir(room.temporary) == []
    room.write("dump 3", b"%b\t2\n%b\t5\n" % (b"A" * 25, b"A" * 25))
    room.refuses(1, "dump 3: line 2 ", words=["merge", "-o", "out", *names])


def test_refused_memory_is_told(room):
    need_programs()
    stand_in(room, "kmc_list", "#!/bin/sh\necho \"kmc_list: $4: behind frame 3, at byte 90: out of memory\" >&2; exit 1\n")
    room.refuses(1, "out of memory: kmc_list got no more within --memory 1 GB", "more --slices",
                 words=["count", "-q", "--memory", "1G", "--slices", "2", READS, "-o", "out"])
    stand_in(room, "kmc_cut", "#!/bin/sh\nshift $(($# - 1)); echo \"kmc_cut: $1.1: cannot be written\" >&2; exit 1\n")
    room.refuses(1, "crane: %s: it cannot be written" % room.folder, words=["count", "-q", "--slices", "2", READS, "-o", "out"])
    stand_in(room, "kmc_cut", "#!/bin/sh\necho 'kmc_cut: line 7: bad plus line' >&2; exit 1\n")
    room.refuses(1, "reads.fastq: line 7: bad plus line", words=["count", "-q", "--slices", "2", READS, "-o", "out"])
