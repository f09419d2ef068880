"""kmc_db by itself: joins and histograms against a plain count made here, what it refuses, and how it ends."""
import os
import random

from room import content, need, plainly, program
from test_databases import quietly
from test_programs import MOST, ended

USAGE = (b"usage: kmc_db union|intersect|subtract|counters-subtract [-oc<choice>] [-ci<n>] [-cx<n>] [-cs<n>] a.dump b.dump, "
         b"or kmc_db table [-cs<n>] a.dump b.dump, or kmc_db histogram a.dump, or kmc_db query [-b] a.dump|<name> < words\n")
CHOICES = {"min": min, "max": max, "sum": lambda a, b: a + b, "diff": lambda a, b: max(a - b, 0), "left": lambda a, b: a, "right": lambda a, b: b}
OWN = {"union": "sum", "intersect": "min", "counters-subtract": "diff", "subtract": None}


def joined(operation, choice, first, second):
    """The number of each word of either dump, 0 where it is left out."""
    numbers = {}
    for word in {*first, *second}:
        a, b = first.get(word, 0), second.get(word, 0)
        both = 0 if operation == "subtract" else CHOICES[choice](a, b)
        alone = {"union": a or b, "intersect": 0}.get(operation, a)
        numbers[word] = both if a and b else alone
    return numbers


def text_of(numbers):
    return "".join("%s\t%d\n" % it for it in sorted(numbers.items())).encode()


def a_dump(dice, k):
    words = {"".join(dice.choices("ACGT", k=k)) for _ in range(dice.choice((0, 1, 9, 300)))}
    return {word: dice.choice((1, 2, 3, dice.randrange(1, 50), MOST)) for word in words}


def test_dumps_are_joined_as_counted_here(room):
    program("kmc_db")
    dice = random.Random(5)
    for _ in range(60):
        k = dice.choice((1, 2, 4, 31, 64))
        first, second = a_dump(dice, k), a_dump(dice, k)
        names = room.write("first", text_of(first)), room.write("second", text_of(second))
        operation = dice.choice(sorted(OWN))
        choice = OWN[operation] and dice.choice((None, *CHOICES))
        ci, cx, cs = dice.choice((0, 1, 3)), dice.choice((20, MOST)), dice.choice((1, 9, MOST))
        words = (operation, *(["-oc" + choice] if choice else []), "-ci%d" % ci, "-cx%d" % cx, "-cs%d" % cs)
        numbers = joined(operation, choice or OWN[operation], first, second)
        wanted = text_of({word: min(n, cs) for word, n in numbers.items() if n and ci <= n <= cx})
        assert ended(room, "kmc_db", *words, *names) == (0, wanted, b""), words


def within(counts, least, greatest):
    return {word: count for word, count in counts.items() if least <= count <= greatest}


def test_limits_of_each_file_are_as_counted_here(room):
    program("kmc_db")
    dice = random.Random(8)
    for _ in range(60):
        k = dice.choice((1, 4, 31, 64))
        first, second = a_dump(dice, k), a_dump(dice, k)
        names = room.write("first", text_of(first)), room.write("second", text_of(second))
        operation = dice.choice(sorted(OWN))
        left, right = (dice.choice(((0, (1 << 64) - 1), (0, 9), (2, 20), (3, MOST), (9, 2))) for _ in range(2))
        words = [operation, "-lci%d" % left[0], "-lcx%d" % left[1], "-rci%d" % right[0], "-rcx%d" % right[1]]
        numbers = joined(operation, OWN[operation], within(first, *left), within(second, *right))
        wanted = text_of({word: n for word, n in numbers.items() if 1 <= n <= MOST})
        assert ended(room, "kmc_db", *words, "-ci1", "-cx%d" % MOST, "-cs%d" % MOST, *names) == (0, wanted, b""), words


def some_reads(dice, pool):
    """A FASTQ text of parts of a pool, so that such texts share k-mers, which they have unlike often."""
    reads = [pool[at:at + 60] for at in (dice.randrange(len(pool) - 60) for _ in range(60))]
    return "".join("@r\n%s\n+\n%s\n" % (read, "I" * 60) for read in reads).encode()


def test_limits_of_each_file_are_those_of_kmc_tools(room):
    program("kmc_db")
    need("kmc", "kmc_tools")
    os.mkdir(room.path("files"))
    dice = random.Random(9)
    theirs = {"union": "union", "intersect": "intersect", "subtract": "kmers_subtract", "counters-subtract": "counters_subtract"}
    wide = ["-ci1", "-cx1000000000", "-cs1000000"]
    for k in (14, 21, 33):
        pool = "".join(dice.choices("ACGT", k=300))
        for name in "ab":
            text = some_reads(dice, pool)
            room.write(name + ".fastq", text)
            room.write(name + ".dump", plainly(text, k, 1, 10**9, 10**6))
            quietly(room, "kmc", "-k%d" % k, *wide, "-m2", "-t1", "-fq", name + ".fastq", name, "files")
        for operation in sorted(theirs) * 3:
            left, right = (dice.choice(((1, 10**9), (1, 5), (3, 8), (6, 10**9))) for _ in range(2))
            quietly(room, "kmc_tools", "-t1", "simple", "a", "-ci%d" % left[0], "-cx%d" % left[1], "b", "-ci%d" % right[0], "-cx%d" % right[1],
                    theirs[operation], "joined", *wide)
            quietly(room, "kmc_tools", "-t1", "transform", "joined", "dump", "-s", "listed")
            words = [operation, "-lci%d" % left[0], "-lcx%d" % left[1], "-rci%d" % right[0], "-rcx%d" % right[1], *wide]
            assert ended(room, "kmc_db", *words, "a.dump", "b.dump") == (0, content(room.path("listed")), b""), (k, words)


def test_a_histogram_is_as_counted_here(room):
    program("kmc_db")
    dice = random.Random(6)
    for k in (1, 4, 31):
        counts = list(a_dump(dice, k).items())
        rows = {}
        for _, count in counts:
            rows[count] = rows.get(count, 0) + 1
        wanted = "".join("%d\t%d\n" % it for it in sorted(rows.items())).encode()
        assert ended(room, "kmc_db", "histogram", room.write("a.dump", text_of(dict(counts)))) == (0, wanted, b""), k


def test_a_table_is_as_counted_here(room):
    program("kmc_db")
    dice = random.Random(7)
    for _ in range(20):
        k, cap = dice.choice((1, 4, 31, 64)), dice.choice((1, 3, 1000, MOST))
        first, second = a_dump(dice, k), a_dump(dice, k)
        names = room.write("first", text_of(first)), room.write("second", text_of(second))
        rows = {}
        for word in {*first, *second}:
            both = min(first.get(word, 0), cap), min(second.get(word, 0), cap)
            rows[both] = rows.get(both, 0) + 1
        wanted = "".join("%d\t%d\t%d\n" % (*both, many) for both, many in sorted(rows.items())).encode()
        words = () if cap == 1000 else ("-cs%d" % cap,)
        assert ended(room, "kmc_db", "table", *words, *names) == (0, wanted, b""), (k, cap)
        room.counts(wanted, "table", *(() if cap == 1000 else ("--cap", str(cap))), *names)


def test_an_assembly_is_judged_by_merqurys_formulas(room):
    program("kmc_db")
    reads, assembly = room.write("reads", "AAC\t5\nACG\t1\nCCA\t7\n"), room.write("assembly", "AAC\t1\nACG\t2\nGTA\t1\n")
    shared = b"in both\t2\nin the first alone\t1\nin the second alone\t1\nJaccard index\t0.500000\n"
    # one of four occurrences is not in the reads: E is 1 less the third root of 3 / 4
    room.counts(shared + b"completeness\t50.0000\nQV\t10.3887\n", "compare", "--assembly", "--solid", "2", reads, assembly)
    room.counts(shared + b"completeness\t66.6667\nQV\t10.3887\n", "compare", "--assembly", reads, assembly)
    whole = b"in both\t3\nin the first alone\t0\nin the second alone\t0\nJaccard index\t1.000000\n"
    room.counts(whole + b"completeness\t100.0000\nQV\tinf\n", "compare", "--assembly", reads, room.write("same", "AAC\t5\nACG\t1\nCCA\t7\n"))
    room.refuses(2, "--assembly wants two files", words=["compare", "--assembly", reads, "-"], text=b"")


def test_a_join_refuses_wrong_words(room):
    program("kmc_db")
    room.write("a", "AC\t2\n")
    for words in ([], ["union"], ["union", "a"], ["union", "a", "a", "a"], ["join", "a", "a"], ["union", "-ocmean", "a", "a"], ["union", "-oc", "a", "a"],
                  ["union", "-ocmin", "-ocmax", "a", "a"], ["subtract", "-ocmin", "a", "a"], ["union", "-k31", "a", "a"], ["histogram"],
                  ["union", "-lci1", "-lci1", "a", "a"], ["union", "-rcx", "a", "a"], ["union", "-lcx18446744073709551616", "a", "a"],
                  ["table", "-lci1", "a", "a"],
                  ["histogram", "-ci1", "a"], ["histogram", "a", "a"]):
        assert ended(room, "kmc_db", *words) == (2, b"", USAGE), words
    assert ended(room, "kmc_db", "union", "-cs0", "a", "a") == (2, b"", b"kmc_db: value of -cs is out of range\n")


def test_a_join_names_the_file_at_fault(room):
    program("kmc_db")
    room.write("a", "AC\t2\nCA\t1\n")
    room.write("b", "AC\t2\nCAA\t1\n")
    status, _, told = ended(room, "kmc_db", "union", "a", "b")
    assert (status, told) == (1, b"kmc_db: b: line 2 has a word of another length\n"), told
    assert ended(room, "kmc_db", "histogram", "b") == (1, b"", b"kmc_db: b: line 2 has a word of another length\n")
    assert ended(room, "kmc_db", "union", "a", "c") == (1, b"", b"kmc_db: c: cannot be opened\n")
    with open("/dev/full", "wb") as full:
        for words in (("union", "a", "a"), ("histogram", "a")):
            assert ended(room, "kmc_db", *words, out=full) == (1, None, b"kmc_db: cannot write\n"), words
