"""Reads that are cut by several programs side by side: a share ends between records, and the dump is that of one program."""
import json
import os
import random
import subprocess

from futoncrane import cutting, parts, sending
from room import COMMAND, LONG, MOST, READS, TOP, Told, content, plainly, program

# the command, where the fewest bytes of a share are so many
SMALL = "import sys; sys.path.insert(0, sys.argv[1]); from futoncrane import cutting, main; cutting.LEAST_BYTES = int(sys.argv[2]); sys.exit(main.main(sys.argv[4:], sys.argv[3]))"


def fastq_of(source, many, ending=b"\n"):
    """FASTQ records, whose names and qualities begin with any letter."""
    found = []
    for number in range(many):
        length = source.randint(20, 200)
        read, quality = "".join(source.choices("ACGTN", weights=(9, 9, 9, 9, 1), k=length)), "".join(source.choices("@+ACGT>!I", k=length))
        found.append(ending.join([b"@%d" % number, read.encode(), b"+", quality.encode(), b""]))
    return b"".join(found)


def fasta_of(source, many):
    return b"".join(b">%d\n%s\n%s\n" % (number, b"ACGTTGCA" * source.randint(1, 30), b"GATTACA" * source.randint(1, 5)) for number in range(many))


def opened(room, texts):
    """Files with these texts, open for reading."""
    return [os.open(room.path(room.write("reads.%d" % number, text)), os.O_RDONLY) for number, text in enumerate(texts)]


def test_shares_are_the_inputs_in_a_row(room):
    source = random.Random(1)
    for is_fasta, texts in ((False, [fastq_of(source, 300)]), (False, [fastq_of(source, 90), b"", fastq_of(source, 3, b"\r\n"), fastq_of(source, 200)[:-1]]),
                            (True, [fasta_of(source, 200)]), (True, [fasta_of(source, 3), fasta_of(source, 80)[:-1], fasta_of(source, 1)])):
        files = opened(room, texts)
        for many in (1, 2, 3, 5):
            shares = parts.shares(files, [len(it) for it in texts], is_fasta, many)
            assert 1 <= len(shares) <= many and (len(shares) == many or is_fasta), (is_fasta, many, shares)
            assert b"".join(texts[files.index(file)][start:end] for share in shares for file, start, end in share) == b"".join(texts)
            for share in shares:
                file, start, _ = share[0]
                text = texts[files.index(file)]
                assert text[start:start + 1] == (b">" if is_fasta else b"@") and (start == 0 or text[start - 1:start] == b"\n")
                assert is_fasta or text[:start].count(b"\n") % 4 == 0
        for it in files:
            os.close(it)


def test_text_whose_records_cannot_be_told_is_one_share(room):
    # each line might be a header, a sequence, a plus or a quality
    files = opened(room, [b"@+\n" * 4000, b">a\n" + b"ACGT\n" * 900])
    assert parts.shares(files[:1], [12000], False, 2) == []
    assert parts.shares(files[1:], [4503], True, 2) == [[(files[1], 0, 4503)]]
    ends = [fastq_of(random.Random(5), 3), b"@a\nA\n+\nI\n"]
    both = opened(room, ends)
    assert parts.shares(both, list(map(len, ends)), False, 2) == [[(both[0], 0, len(ends[0]))], [(both[1], 0, 9)]]
    files += both
    for it in files:
        os.close(it)


def test_a_file_that_became_shorter_is_not_whole(room):
    for text, wanted in ((b"ACGT", b""), (b"ACGT\nAC\n", b"T\nAC\n"), (b"ACGT\nACG", b"T\nACG\n")):
        (file,) = opened(room, [text])
        sender = sending.Sender([(file, 3, 8)], ends_lines=True)
        source = os.dup(sender.source)
        sender.begin()
        with open(source, "rb") as pipe:
            found = pipe.read()
        assert sender.is_whole() == (len(text) >= 8) and (found == wanted or not wanted), (text, found)
        os.close(file)


def small(room, least, *words):
    """The command with shares of at least so many bytes."""
    ran = subprocess.run([COMMAND[0], "-c", SMALL, TOP, str(least), os.path.dirname(COMMAND[-1]), *words], cwd=room.folder, env=room.environment,
                         stdin=subprocess.DEVNULL, stdout=subprocess.PIPE, stderr=subprocess.PIPE, timeout=LONG, check=False)
    return Told(ran.returncode, ran.stdout, ran.stderr.decode())


def need_programs():
    for name in ("kmc", "kmc_cut", "kmc_list", "kmc_merge"):
        program(name)


def test_reads_cut_in_shares_are_counted_whole(room):
    need_programs()
    source = random.Random(2)
    for k in (1, 25, 64):
        texts = [fastq_of(source, 150), fastq_of(source, 40)[:-1], content(READS)]
        names = [room.write("reads.%d" % number, text) for number, text in enumerate(texts)]
        whole = b"\n".join(it.rstrip(b"\n") for it in texts) + b"\n"
        for slices in ("1", "3"):
            ran = small(room, 1000, "count", "-k%d" % k, "--min", "1", "--cap", "none", "-t4", "--slices", slices, *names)
            assert ran.status == 0 and ran.out == plainly(whole, k, 1, cap=MOST), ran
    ran = small(room, 1000, "count", "-k25", "--slices", "2", "--keep", "--directory", ".", "-t2", "-o", "dump", names[-1])
    assert ran.status == 0 and content(room.path("dump")) == plainly(content(READS), 25), ran
    assert json.loads(content(room.path("dump.json")))["steps"] == ["kmc_cut", "kmc_list", "kmc_merge"]


def test_the_fault_of_a_share_is_told_of_the_whole(room):
    need_programs()
    lines = content(READS).splitlines(keepends=True)
    for number in (2, len(lines) // 2 + 2, len(lines) - 2):
        wrong = [*lines]
        wrong[number // 4 * 4 + 2] = b"-\n"
        room.write("reads", b"".join(wrong))
        before = room.files()
        ran = small(room, 1000, "count", "-k25", "--slices", "2", "-t4", "reads")
        assert ran.status == 1 and "reads: line %d: " % (number // 4 * 4 + 3) in ran.err and ran.out == b"", ran
        assert room.files() == before


def test_many_programs_cut_plain_files_that_are_large(room):
    setting = type("Setting", (), {"splitters": 4, "memory": 1 << 30})
    large = type("Input", (), {"is_stream": False, "packing": None, "name": "a", "bytes": cutting.LEAST_BYTES})
    assert cutting.many_for([large, large], 1 << 26, setting) == 2
    assert cutting.many_for([large] * 9, 1 << 26, setting) == 3
    assert cutting.many_for([large], 1 << 26, setting) == 1
    for other in ({"is_stream": True}, {"packing": "gzip"}, {"name": "-"}):
        assert cutting.many_for([large, large, type("Other", (large,), other)], 1 << 26, setting) == 1
    setting.memory = 64 << 20
    assert cutting.many_for([large, large], 1 << 26, setting) == 1
    setting.memory, setting.splitters = 1 << 30, 1
    assert cutting.many_for([large, large], 1 << 26, setting) == 1
