"""Dumps that are merged, joined and tabulated by ranges of k-mers side by side: each line is in one range, and the answer is that of one program."""
import collections
import contextlib
import os
import random
import types

from futoncrane import joining, merging, ranged_dumps, ranges, report
from futoncrane.children import Children
from futoncrane.options import MOST
from room import content, program


def text_of(words, seed=1):
    """The lines of a dump with these words."""
    counts = random.Random(seed)
    return b"".join(b"%s\t%d\n" % (word, counts.choice([1, 12, 4000, 1 << 62])) for word in words)


def some_words(source, k, most):
    return sorted({"".join(source.choices("ACGT", k=k)).encode() for _ in range(source.randint(1, most))})


def dealt(room, words, slices, source):
    """The dumps of so many slices that have these words together, some of them empty."""
    own = [[] for _ in range(slices)]
    for word in words:
        own[source.randrange(slices)].append(word)
    return [room.path(room.write("slice.%d" % number, text_of(some, number))) for number, some in enumerate(own)]


def test_the_first_line_of_a_range_is_found(room):
    source = random.Random(2)
    for k in (1, 3, 31, 64):
        words = some_words(source, k, 60)
        text = text_of(words)
        name = room.path(room.write("dump", text))
        starts = [0] + [place + 1 for place, byte in enumerate(text) if byte == 10][:-1]
        with open(name, "rb") as file:
            for bound in [*words, b"A", b"G", b"T" * 64, words[0][:1], words[-1][:1]]:
                wanted = next((start for start, word in zip(starts, words) if word >= bound), len(text))
                assert ranged_dumps.first_from(file.fileno(), len(text), bound) == wanted, (k, bound)


def test_each_line_is_in_one_range(room):
    source = random.Random(3)
    for many in (2, 3, 4, 9):
        for slices in (1, 2, 5):
            names = dealt(room, some_words(source, 12, 200), slices, source)
            texts = [content(name) for name in names]
            ends, last = [0] * slices, b""
            with contextlib.ExitStack() as files:
                for found in ranges.ranges_of([ranged_dumps.RangedDump(it, files) for it in names], many):
                    lines = []
                    for number, part in enumerate(found):
                        assert ends[number] == part.start
                        ends[number] = part.end
                        lines += texts[number][part.start:part.end].splitlines(keepends=True)
                    assert last < min(lines) and all(it.endswith(b"\n") for it in lines)
                    last = max(lines)
            assert ends == [len(it) for it in texts]


def merged(room, names, threads, least):
    """Whether the dumps were merged by ranges, where no fewer bytes than `least` are; and what is in the answer."""
    program("kmc_merge")
    ranges.LEAST_BYTES = least
    with Children() as children, open(room.path("answer"), "wb") as file:
        setting = types.SimpleNamespace(threads=threads, quiet=True, report=report.Report(False))
        output = types.SimpleNamespace(is_made=True, packer=None, work=room.path("answer"), file=file.fileno())
        is_done = ranges.merged(names, merging.WHOLE, children, setting, output)
    return is_done, content(room.path("answer"))


def test_a_merge_by_ranges_is_the_merge(room):
    source = random.Random(4)
    for slices in (2, 5):
        words = some_words(source, 31, 30000)
        names = dealt(room, words, slices, source)
        wanted = b"".join(sorted(line for name in names for line in content(name).splitlines(keepends=True)))
        for threads in (2, 3, 4, 16):
            assert merged(room, names, threads, 0) == (True, wanted), (slices, threads)
        assert merged(room, names, 1, 0) == (False, b"")
        assert merged(room, names, 4, 1 << 30) == (False, b"")


def test_what_is_not_merged_whole_leaves_nothing(room):
    words = some_words(random.Random(5), 21, 30000)
    names = [room.path(room.write("rising", text_of(words[::2]))), room.path(room.write("falling", text_of(words[1::2]).replace(b"\t", b" ", 1)))]
    assert merged(room, names, 4, 0) == (False, b"")


def numbers_of(names):
    """For each dump its k-mers with their counts."""
    return [{word: int(count) for word, count in (line.split(b"\t") for line in content(name).splitlines())} for name in names]


# for each join its words of a command line, and the count that it gives a k-mer by its counts, 0 where it lists none
JOINS = {
    "union": (["union", "-ocsum"], lambda a, b: a + b),
    "intersect": (["intersect", "-ocmin"], lambda a, b: min(a, b)),
    "subtract": (["subtract"], lambda a, b: 0 if b else a),
    "counters-subtract": (["counters-subtract", "-ocdiff"], lambda a, b: max(0, a - b)),
}


def answer_of(names, number):
    """The dump of the join of two dumps, word by word."""
    left, right = numbers_of(names)
    found = ((word, number(left.get(word, 0), right.get(word, 0))) for word in sorted({*left, *right}))
    return b"".join(b"%s\t%d\n" % it for it in found if it[1])


def joined(room, names, words, threads, program_name="kmc_db", range_bytes=200):
    """Whether the dumps were joined by ranges of about so many bytes, and what is in the answer."""
    program(program_name)
    ranges.LEAST_BYTES, ranges.RANGE_BYTES = 0, range_bytes
    with Children() as children, open(room.path("answer"), "wb") as file:
        setting = types.SimpleNamespace(threads=threads, quiet=True, report=report.Report(False))
        output = types.SimpleNamespace(is_made=True, packer=None, work=room.path("answer"), file=file.fileno())
        is_done = ranges.joined(names, program_name, [*words, *merging.WHOLE], children, setting, output)
    return is_done, content(room.path("answer"))


def overlapping(room, source, k, most):
    """Two dumps that share some k-mers."""
    words = some_words(source, k, most)
    parts = [source.choice(["left", "right", "both"]) for _ in words]
    return [room.path(room.write(side, text_of([word for word, part in zip(words, parts) if part in (side, "both")], seed)))
            for seed, side in enumerate(["left", "right"])]


def test_a_join_by_ranges_is_the_join(room):
    source = random.Random(6)
    for k, most in ((1, 4), (3, 60), (31, 80), (64, 40)):
        for words, number in JOINS.values():
            names = overlapping(room, source, k, most)
            wanted = answer_of(names, number)
            for threads in (2, 5):
                assert joined(room, names, words, threads) == (True, wanted), (k, words, threads)


def test_a_line_at_a_bound_is_in_one_range_of_both_dumps(room):
    words = some_words(random.Random(7), 9, 400)
    names = [room.path(room.write(side, text_of(words, 1))) for side in ("left", "right")]
    assert joined(room, names, JOINS["intersect"][0], 4, range_bytes=40) == (True, text_of(words, 1))
    assert joined(room, names, JOINS["subtract"][0], 4, range_bytes=40) == (True, b"")


def test_a_dump_without_lines_in_some_ranges_or_in_all(room):
    words = some_words(random.Random(8), 11, 90)
    for some in (words[:3], words[-3:], words[20:23], []):
        names = [room.path(room.write("left", text_of(words))), room.path(room.write("right", text_of(some, 2)))]
        for join, number in JOINS.values():
            assert joined(room, names, join, 3) == (True, answer_of(names, number))
            assert joined(room, names[::-1], join, 3) == (True, answer_of(names[::-1], number))


def test_sums_of_dumps_that_share_k_mers_are_made_by_ranges(room):
    names = [*overlapping(room, random.Random(9), 21, 300), room.path(room.write("third", text_of(some_words(random.Random(9), 21, 300), 3)))]
    found = numbers_of(names)
    sums = ((word, sum(it.get(word, 0) for it in found)) for word in sorted(set().union(*found)))
    wanted = b"".join(b"%s\t%d\n" % it for it in sums if it[1] <= MOST)
    assert joined(room, names, [], 3, "kmc_merge") == (True, wanted)


def test_dumps_that_one_program_refuses_are_not_joined_by_ranges(room):
    words = some_words(random.Random(10), 21, 60)
    text, half = text_of(words), len(words) // 2
    others = [word + b"A" for word in words[half:]]
    for wrong in (text_of(words[half:]) + text_of(words[:half]), text_of(words[:half]) + text_of(words[half - 1:]), text_of(words[:half]) + text_of(others),
                  text[:-1], text.replace(b"\t", b" ", 1), text + b"\n", text + b"AC", text + b"A" * 500):
        name = room.path(room.write("right", wrong))
        for left in (text, b"", text_of(words[-1:])):
            names = [room.path(room.write("left", left)), name]
            for size in (100, 1000):
                assert joined(room, names, JOINS["union"][0], 4, range_bytes=size) == (False, b""), (wrong, size)


def test_a_table_by_ranges_is_the_table(room):
    program("kmc_db")
    source = random.Random(11)
    ranges.LEAST_BYTES, ranges.RANGE_BYTES = 0, 200
    for k, most in ((2, 16), (25, 200)):
        names = overlapping(room, source, k, most)
        left, right = numbers_of(names)
        for cap in (1, 100, MOST):
            wanted = collections.Counter((min(cap, left.get(word, 0)), min(cap, right.get(word, 0))) for word in {*left, *right})
            with Children() as children:
                setting = types.SimpleNamespace(threads=3, quiet=True, report=report.Report(False))
                assert joining.table_by_ranges(names, cap, children, setting) == sorted((*counts, wanted[counts]) for counts in wanted)


def test_large_dumps_are_joined_and_their_fault_is_told_with_its_line(room):
    program("kmc_db")
    words = ["".join("ACGT"[number >> place & 3] for place in range(40, -2, -2)).encode() for number in range(1, 1 << 42, 1 << 22)]
    lines = [b"%s\t7\n" % word for word in words]
    left, right = room.write("left.dump", b"".join(lines)), room.write("right.dump", b"".join(lines[::2]))
    assert len(content(room.path(left))) + len(content(room.path(right))) > 1 << 24
    for threads in ("-t1", "-t3"):
        room.run("subtract", "-q", threads, "-o", "answer" + threads, left, right)
        assert content(room.path("answer" + threads)) == b"".join(lines[1::2])
        assert room.run("histogram", "-q", threads, left).out == b"7\t%d\n" % len(lines)
    place = len(lines) * 2 // 3
    lines[place:place + 2] = lines[place + 1], lines[place]
    room.write("wrong.dump", b"".join(lines))
    room.refuses(1, "wrong.dump", "line %d" % (place + 2), words=["intersect", "-q", "-t3", "-o", "none", left, "wrong.dump"])
    room.refuses(1, "wrong.dump", "line %d" % (place + 2), words=["histogram", "-q", "-t3", "wrong.dump"])
    assert not os.path.exists(room.path("none"))
