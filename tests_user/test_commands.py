"""The commands beside `count`: what each writes, against plain programs."""
import collections
import gzip
import os
import re

from room import MOST, NO_NOTE, READS, TOP, content, need, plainly, program, wanted_dump


def histogram_of(dump):
    found = collections.Counter(int(line.split()[1]) for line in dump.splitlines())
    return sorted(found.items())


def test_histogram_is_that_of_the_plain_dump(room):
    rows = histogram_of(plainly(content(READS), 21, 1, MOST, MOST))
    wanted = b"".join(b"%d\t%d\n" % it for it in rows)
    room.counts(wanted, "histogram", READS)
    room.counts(wanted, "histogram", "-k", "21", room.write("reads.gz", gzip.compress(content(READS))))
    room.counts(b"", "histogram", "-o", "histogram.gz", READS)
    assert gzip.decompress(content(room.path("histogram.gz"))) == wanted
    room.refuses(1, "no such".capitalize(), words=["histogram", "missing", "-o", "out"])
    room.counts(b"", "histogram", text=b"", told="futoncrane: standard input: there are no reads, so no k-mer is listed\n")


def test_histogram_is_drawn_with_characters(room):
    ran = room.run("histogram", "--text", READS)
    lines = ran.err.splitlines()
    assert ran.status == 0 and lines[0].split() == ["count", "k-mers"], ran
    # the longest bar is that of the peak, 9, and the first one is cut
    bars = [line.split()[2] for line in lines[1:17]]
    assert len(lines) == 1 + 16 + 1 and lines[1].split()[:2] == ["1", "2,669"] and bars[0] == bars[8] + ">" == "*" * 50 + ">", ran


def test_histogram_is_drawn_by_gnuplot(room):
    need("gnuplot")
    room.run("histogram", "--png", "a picture.png", READS)
    assert content(room.path("a picture.png"))[:8] == b"\x89PNG\r\n\x1a\n"
    ran = room.run("size", "--png", "size.png", READS)
    assert ran.status == 0 and content(room.path("size.png"))[:8] == b"\x89PNG\r\n\x1a\n", ran
    room.refuses(1, "none/a.png", words=["histogram", "--png", "none/a.png", READS])


def test_the_picture_marks_what_is_found(room):
    # a gnuplot that writes down what it is told, and draws nothing
    os.mkdir(room.path("path"))
    room.write("path/gnuplot", "#!/bin/sh\ncat > told\n")
    os.chmod(room.path("path/gnuplot"), 0o755)
    room.environment["PATH"] = room.path("path") + ":" + room.environment["PATH"]
    # the valley is 3 and the peak 5, the size 30, as below; the bars of 1 and 2 are cut at 1.25 of the peak's 20,000
    room.write("peaked \"one\"", b"1\t90000\n2\t50000\n3\t2000\n4\t6000\n5\t20000\n10\t2000\n")
    room.counts(b"valley\t3\npeak\t5\nk-mers read\t340000\nk-mers taken for errors\t190000\nsize\t30000\n", "size", "--png", "a.png", "--histogram", "peaked \"one\"")
    told = content(room.path("told")).decode()
    for part in ('set title "k-mers in peaked \\"one\\""', "set yrange [0:25000.0]", '"0" 0, "5,000" 5000, "10,000" 10000', 'set label "valley 3" at 3,',
                 'set label "peak 5: size 30,000" at 5,', "bars up to the edge are cut", "\n5 20000\n"):
        assert part in told, (part, told)
    ran = room.run("histogram", "--png", "a.png", READS)
    told = content(room.path("told")).decode()
    # the example's valley and peak, as test_histogram_is_drawn_with_characters has them
    assert ran.status == 0 and 'set title "21-mers in reads.fastq"' in told and 'set label "valley 2"' in told and 'set label "peak 9: size ' in told, told


def test_gnuplot_that_is_missing_is_told(room):
    room.environment["PATH"] = room.temporary
    ran = room.run("histogram", "--png", "a.png", READS)
    assert ran.status == 1 and "gnuplot-nox" in ran.err and "a.png" not in os.listdir(room.folder), ran


def test_size_is_worked_out(room):
    # by hand: the valley is 3 and the peak 5, so the words are 3*2 + 4*6 + 5*20 + 10*2 = 150
    room.write("peaked", b"1\t90\n2\t5\n3\t2\n4\t6\n5\t20\n10\t2\n")
    wanted = b"valley\t3\npeak\t%d\nk-mers read\t250\nk-mers taken for errors\t100\nsize\t%d\n"
    room.counts(wanted % (5, 30), "size", "--histogram", "peaked")
    room.counts(wanted % (10, 15), "size", "--peak", "10", "--histogram", "-", text=content(room.path("peaked")))
    ran = room.run("size", "--text", "--histogram", "peaked")
    assert "<- valley" in ran.err.splitlines()[3] and "<- peak" in ran.err.splitlines()[5], ran
    room.refuses(1, "only fall", words=["size", "--histogram", room.write("falling", b"1\t90\n2\t20\n3\t4\n")])
    room.refuses(1, "line 2", words=["size", "--histogram", room.write("wrong", b"1\t90\ntwo\n")])
    room.refuses(1, "missing", words=["size", "--histogram", "missing"])
    room.refuses(2, "takes the place", words=["size", "--histogram", "peaked", READS])


def test_size_is_near_the_genomes(room):
    import subprocess
    import sys
    text = subprocess.run([sys.executable, os.path.join(TOP, "bench", "simulate_reads.py"), "9000", "100", "20000", "5", "0.005"], stdout=subprocess.PIPE).stdout
    ran = room.run("size", room.write("reads", text))
    found = dict(line.split("\t") for line in ran.out.decode().splitlines())
    assert 19000 < int(found["size"]) < 21000, ran


def test_genomescope_has_each_count(room):
    rows = dict(histogram_of(plainly(content(READS), 21, 1, MOST, 12)))
    room.counts(b"".join(b"%d %d\n" % (count, rows.get(count, 0)) for count in range(1, 13)), "genomescope", "--top", "12", READS)
    ran = room.run("genomescope", READS)
    assert ran.out.count(b"\n") == 10000 and ran.out.endswith(b"\n10000 0\n")


def test_solid_has_the_kmers_within_the_limits(room):
    lines = [line.split(b"\t") for line in plainly(content(READS), 31, 3, 9, MOST).splitlines()]
    room.counts(b"".join(b">%d count=%b\n%b\n" % (number, count, word) for number, (word, count) in enumerate(lines, 1)),
                "solid", "--min", "3", "--max", "9", READS)
    room.counts(b"".join(b">%b\n%b\n" % (count, word) for word, count in lines), "solid", "--jellyfish", "-ci3", "-cx9", READS)
    room.refuses(1, "missing", words=["solid", "missing", "-o", "out"])


def compared(one, other):
    """What `compare` is to write of two dumps, for each of its options."""
    first, second = (dict(line.split(b"\t") for line in it.splitlines()) for it in (one, other))
    both = sorted(set(first) & set(second))
    return {
        None: b"in both\t%d\nin the first alone\t%d\nin the second alone\t%d\nJaccard index\t%.6f\n" % (
            len(both), len(set(first) - set(second)), len(set(second) - set(first)), len(both) / len(set(first) | set(second))),
        "common": b"".join(b"%b\t%b\t%b\n" % (word, first[word], second[word]) for word in both),
        "first": b"".join(b"%b\t%b\n" % (word, first[word]) for word in sorted(set(first) - set(second))),
        "second": b"".join(b"%b\t%b\n" % (word, second[word]) for word in sorted(set(second) - set(first))),
        "same": b"".join(b"%b\t%b\n" % (word, first[word]) for word in both if first[word] == second[word])}


def test_compare_counts_what_is_in_common(room):
    text = content(READS)
    middle = text.index(b"\n@read90\n") + 1 if b"\n@read90\n" in text else len(b"".join(text.splitlines(keepends=True)[:320]))
    one, other = plainly(text[:middle + 0], 21, 1), plainly(text[middle:], 21, 1)
    room.write("one.dump", one)
    room.write("other one.dump.gz", gzip.compress(other))
    for what, wanted in compared(one, other).items():
        assert wanted, what
        room.counts(wanted, "compare", *(["--" + what] if what else []), "one.dump", "other one.dump.gz")
    room.counts(compared(other, one)[None], "compare", "-", "one.dump", text=other)
    room.write("empty", b"")
    room.counts(b"in both\t0\nin the first alone\t0\nin the second alone\t0\nJaccard index\t1.000000\n", "compare", "empty", "empty")


def test_compare_in_many_blocks(room):
    import random
    words = sorted({"".join(random.Random(number).choices("ACGT", k=20)) for number in range(60000)})
    one = "".join("%s\t%d\n" % (word, 1 + number % 300) for number, word in enumerate(words) if number % 3).encode()
    other = "".join("%s\t%d\n" % (word, 1 + number % 200) for number, word in enumerate(words) if number < 30000 or number % 2).encode()
    room.write("one", one)
    room.write("other", other)
    for what, wanted in compared(one, other).items():
        room.counts(wanted, "compare", *(["--" + what] if what else []), "one", "other")


CHOICES = {"min": min, "max": max, "sum": lambda a, b: a + b, "diff": lambda a, b: max(a - b, 0), "left": lambda a, b: a, "right": lambda a, b: b}


def joined(one, other, combined, least=1, cap=MOST):
    """The dump of a join, where `combined` tells a k-mer's count by its counts in both dumps, 0 where one lacks it."""
    first, second = ({word: int(count) for word, count in (line.split(b"\t") for line in it.splitlines())} for it in (one, other))
    counts = {word: combined(first.get(word, 0), second.get(word, 0)) for word in first.keys() | second.keys()}
    return b"".join(b"%b\t%d\n" % (word, min(counts[word], cap)) for word in sorted(counts) if counts[word] >= max(least, 1))


def test_dumps_are_joined(room):
    program("kmc_db")
    text = content(READS)
    middle = len(b"".join(text.splitlines(keepends=True)[:320]))
    one, other = plainly(text[:middle], 21, 1), plainly(text[middle:], 21, 1)
    room.write("one.dump", one)
    room.write("other one.dump.gz", gzip.compress(other))
    names = ["one.dump", "other one.dump.gz"]
    for name, choose in CHOICES.items():
        either = joined(one, other, lambda a, b: choose(a, b) if a and b else a + b)
        both = joined(one, other, lambda a, b: choose(a, b) if a and b else 0)
        assert either and (both or name == "diff"), name
        room.counts(either, "union", "--count", name, *names)
        room.counts(both, "intersect", "--count", name, *names)
    room.counts(joined(one, other, lambda a, b: a + b), "union", *names)
    room.counts(joined(one, other, min), "intersect", *names)
    room.counts(joined(one, other, lambda a, b: 0 if b else a), "subtract", *names)
    room.counts(joined(one, other, lambda a, b: max(a - b, 0)), "subtract", "--counts", *names)
    room.counts(joined(other, one, lambda a, b: 0 if b else a), "subtract", "-", "one.dump", text=other)
    room.counts(joined(one, other, lambda a, b: a + b, 3, 9), "union", "--min", "3", "--cap", "9", *names)
    room.write("empty", b"")
    room.counts(one, "union", "one.dump", "empty")
    room.counts(b"", "intersect", "empty", "one.dump")


def test_a_join_names_what_is_wrong(room):
    program("kmc_db")
    whole = wanted_dump()
    room.write("whole", whole)
    room.write("shorter", plainly(content(READS), 20))
    room.write("unsorted", b"".join(reversed(whole.splitlines(keepends=True))))
    for name in ("union", "intersect", "subtract"):
        room.refuses(1, "shorter: line 1", words=[name, "whole", "shorter", "-o", "out"])
        room.refuses(1, "unsorted: line 2", words=[name, "whole", "unsorted", "-o", "out"])
        room.refuses(1, "absent", words=[name, "whole", "absent", "-o", "out"])
        room.refuses(2, "stands twice", words=[name, "whole", "whole", "-o", "out"])
    room.refuses(2, "it takes min, max, sum, diff, left, right", words=["union", "--count", "mean", "whole", "shorter"])
    room.refuses(2, "no option --count", words=["subtract", "--count", "min", "whole", "shorter"])


def test_compare_names_what_is_wrong(room):
    whole = wanted_dump()
    room.write("whole", whole)
    room.write("shorter", plainly(content(READS), 20))
    room.refuses(1, "shorter: line 1 has a word of another length", words=["compare", "whole", "shorter"])
    room.refuses(1, "25 symbols in whole and 20 in shorter", words=["compare", "--common", "whole", "shorter"])
    room.refuses(1, "unsorted: line 2", words=["compare", "whole", room.write("unsorted", b"".join(reversed(whole.splitlines(keepends=True))))])
    room.refuses(1, "absent", words=["compare", "whole", "absent"])
    lines = whole.splitlines(keepends=True)
    for name, wrong in (("space", lines[2].replace(b"\t", b" ")), ("lower", lines[2].lower()), ("twice", lines[1]), ("blank", b"\n"), ("word", lines[2][:25] + b"\tx\n")):
        room.write(name, b"".join(lines[:2] + [wrong] + lines[3:]))
        room.refuses(1, name + ": line 3", words=["compare", name, "whole", "-o", "out"])
    room.write("unended", whole[:-1])
    room.refuses(1, "unended: line %d" % len(lines), words=["compare", "whole", "unended"])
    room.write("cut.gz", gzip.compress(whole)[:-30])
    ran = room.run("compare", "--first", "cut.gz", "whole", "-o", "out")
    assert ran.status == 1 and "cut.gz" in ran.err and not os.path.exists(room.path("out")), ran


def parts(room, number, **others):
    """The dumps of the example's reads dealt to parts, each k-mer with its count."""
    lines = content(READS).splitlines(keepends=True)
    records = [b"".join(lines[place:place + 4]) for place in range(0, len(lines), 4)]
    names = []
    for part in range(number):
        room.write("reads %d" % part, b"".join(records[part::number]))
        names.append("part %d.dump%s" % (part, ".gz" if part % 2 else ""))
        room.counts(b"", "count", "-k25", "--min", "1", "--cap", "none", "-o", names[-1], "reads %d" % part)
    return names


def test_merged_parts_are_the_whole(room):
    program("kmc_merge")
    names = parts(room, 5)
    room.counts(wanted_dump(), "merge", *names)
    room.counts(plainly(content(READS), 25, 4, 9, 6), "merge", "--min", "4", "--max", "9", "--cap", "6", *names, room.write("-empty", b"") and "./-empty")
    room.counts(b"", "merge", "-o", "whole.gz", "--", *names, "-empty")
    assert gzip.decompress(content(room.path("whole.gz"))) == wanted_dump()
    with open(room.path(names[0]), "rb") as source:
        room.counts(wanted_dump(), "merge", "-", *names[1:], source=source)


def test_merge_names_what_is_wrong(room):
    program("kmc_merge")
    good = room.write("good", b"AC\t2\nCA\t5\n")
    for name, text in (("twice", b"AC\t2\nAC\t5\n"), ("longer", b"AC\t2\nCAA\t5\n"), ("line\nfeed", b"AC\t2\nCA\t0\n"), ("unended", b"AC\t2\nCA\t5")):
        room.write(name, text)
        shown = name if name.isprintable() else repr(name)
        room.refuses(1, shown + ": line 2 ", words=["merge", good, name, "-o", "out"])
        room.write("packed.gz", gzip.compress(text))
        room.refuses(1, "packed.gz: line 2 ", words=["merge", good, "packed.gz", "-o", "out"])
    room.refuses(1, "missing: No such file", words=["merge", good, "missing", "-o", "out"])
    room.refuses(2, "good: it is read", words=["merge", "good", "-o", "good"])
    whole = gzip.compress(plainly(content(READS), 25, 1))
    for place in range(2, len(whole), len(whole) // 10):
        room.write("cut.gz", whole[:place])
        ran = room.run("merge", good if place < 20 else "cut.gz", "cut.gz" if place < 20 else room.write("none", b""), "-o", "out")
        told = re.sub(NO_NOTE, "", ran.err)
        assert ran.status == 1 and told.startswith("futoncrane: cut.gz: ") and told.count("\n") == 1, ran
        assert not os.path.exists(room.path("out"))


def test_doctor_finds_all_well(room):
    for name in ("kmc_merge", "kmc_cut", "kmc_list", "kmc_db"):
        program(name)
    ran = room.run("doctor")
    assert ran.status == 0 and ran.out.endswith(b"\nall is well\n") and ran.err == "" and b"\ndistributed  " in ran.out, ran
    room.environment["PATH"] = room.temporary
    ran = room.run("doctor")
    assert ran.status == 0 and b"gzip, by this Python" in ran.out, ran


def test_doctor_finds_what_is_wrong(room):
    room.stand_in("#!/bin/sh\ncat > /dev/null\nprintf 'ACGT\\t1\\n'\n")
    ran = room.run("doctor")
    assert ran.status == 1 and b"FAILED  kmc counts the example: the dump is another one" in ran.out and all(name + b" MISSING" in ran.out for name in (b"kmc_merge   ", b"kmc_cut     ", b"kmc_list    ")), ran
    room.stand_in("#!/bin/sh\nexit 1\n", "kmc_merge")
    assert room.run("doctor").status == 1


def test_jellyfish_writes_the_same(room):
    import subprocess
    need("jellyfish")
    subprocess.run(["jellyfish", "count", "-m", "21", "-C", "-s", "1M", "-o", "counted.jf", READS], cwd=room.folder, check=True)
    ran = subprocess.run(["jellyfish", "histo", "-f", "-h", "9999", "counted.jf"], cwd=room.folder, stdout=subprocess.PIPE, check=True)
    room.counts(ran.stdout.partition(b"\n")[2], "genomescope", READS)
    ran = subprocess.run(["jellyfish", "dump", "-L", "3", "counted.jf"], cwd=room.folder, stdout=subprocess.PIPE, check=True)
    lines, ours = ran.stdout.splitlines(), room.run("solid", "-k21", "--min", "3", "--jellyfish", READS).out.splitlines()
    assert ours and sorted(zip(ours[1::2], ours[::2])) == sorted(zip(lines[1::2], lines[::2]))


def test_refused_reads_are_refused_by_each(room):
    room.write("bad", b"@r\nACGT\n+\nII\n")
    for command in ("count", "histogram", "size", "solid", "genomescope"):
        room.refuses(1, "bad: line 4: quality length differs", words=[command, "-k3", "bad"])
