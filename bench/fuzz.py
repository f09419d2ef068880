#!/usr/bin/env python3
"""Hostile texts and option lines: each answer of ./kmc against a plain model of the whole program.

usage: fuzz.py [--seed N] [--tries N] [--workers N] [--only N]

Try number N of a seed is always the same text, options and way of feeding. `--only N` runs that one and shows it. The model
below is written from the rules of the formats, the options and the messages. Each answer must be the model's dump with status
0 and nothing on standard error, or its one line on standard error with its status and nothing on standard output. The variable
KMC names another program. The last line says how many tries were made and how many answers were wrong; of each wrong one the
options and the text are kept in a file, the text made smaller as far as the answer stays wrong.
"""
import argparse
import collections
import multiprocessing
import os
import random
import re
import signal
import sys
import tempfile

KMC = os.environ.get("KMC", os.path.join(os.path.dirname(os.path.abspath(__file__)), "..", "kmc"))
SECONDS = 120  # a try that takes longer is wrong
CHUNK = 100  # tries that a worker is given at a time
FULL = 2**63

# ---- the model: options

# name: least, greatest, default; in the order in which they are judged
RANGES = {
    b"k": (1, 64, 25), b"p": (5, 11, 9), b"n": (1, 2000, 512), b"ci": (0, FULL, 2), b"cx": (0, FULL, 10**9),
    b"cs": (1, FULL, 255), b"sp": (1, 16, 2), b"sr": (1, 16, 2),
}
FLAGS = (b"fa", b"fq", b"fm", b"b")
USAGE = (b"usage: kmc [-fa|-fq|-fm] [-k<len>] [-p<len>] [-ci<n>] [-cx<n>] [-cs<n>] [-n<bins>] [-sp<n>] [-sr<n>] [-b]", 2)


class Refused(Exception):
    """The program ends with this line and this status."""


def long_form(word):
    """KMC's glued word as a long one; any other word as it is."""
    if word[:1] == b"-" and word[1:] in FLAGS:
        return b"-" + word
    for name in (b"ci", b"cx", b"cs", b"sp", b"sr", b"k", b"p", b"n"):
        if word.startswith(b"-" + name) and len(word) > len(name) + 1:
            return b"--" + name + b"=" + word[len(name) + 1:]
    return word


def words_found(words):
    """The values and flags that the words give. A word that is no text makes the whole line one that cannot be read."""
    found = {}
    for word in words:
        try:
            word.decode()
        except UnicodeDecodeError:
            raise Refused(*USAGE) from None
    words = [long_form(word) for word in words]
    while words:
        word = words.pop(0)
        if word == b"--" and not words:
            break
        if not word.startswith(b"--"):
            raise Refused(*USAGE)
        name, equals, value = word[2:].partition(b"=")
        if name in found or name not in RANGES and (name not in FLAGS or equals):
            raise Refused(*USAGE)
        if name in RANGES and not equals:
            if not words or words[0].startswith(b"-") and words[0] != b"-":
                raise Refused(*USAGE)
            value = words.pop(0)
        found[name] = value
    return found


def settings_of(words):
    """What the options say, by name."""
    found = words_found(words)
    if sum(name in found for name in (b"fa", b"fq", b"fm")) > 1:
        raise Refused(*USAGE)
    settings = {}
    for name, (least, most, default) in RANGES.items():
        text = found.get(name, b"%d" % default)
        if not re.fullmatch(rb"[0-9]+", text) or not least <= int(text) <= most:
            raise Refused(b"kmc: value of -%s is out of range" % name, 2)
        settings[name] = int(text)
    settings[b"fasta"] = b"fa" in found or b"fm" in found
    settings[b"apart"] = b"b" in found
    return settings


# ---- the model: texts

def fault(line, what):
    return Refused(b"kmc: line %d: %s" % (line, what), 1)


def lines_of(text):
    """The contents of the lines: without the line feed, and without one carriage return before it."""
    lines = text.split(b"\n")
    if not lines[-1]:
        lines.pop()
    return [line[:-1] if line.endswith(b"\r") else line for line in lines]


def fastq_reads(lines):
    reads = []
    place = 0  # of the record's lines the one that is awaited
    for number, line in enumerate(lines, 1):
        if place == 0:
            if not line:
                continue
            if line[:1] != b"@":
                raise fault(number, b"bad header")
        elif place == 1:
            reads.append(line)
        elif place == 2:
            if line[:1] != b"+":
                raise fault(number, b"bad plus line")
        elif len(line) != len(reads[-1]):
            raise fault(number, b"quality length differs")
        place = (place + 1) % 4
    if place:
        raise fault(len(lines) + 1, b"record cut short")
    return reads


def fasta_reads(lines):
    reads = []
    for number, line in enumerate(lines, 1):
        if line[:1] == b">":
            reads.append([])
        elif reads:
            reads[-1].append(line)
        elif line:
            raise fault(number, b"bad header")
    return [b"".join(read) for read in reads]


COMPLEMENT = bytes.maketrans(b"ACGT", b"TGCA")


def dump_of(reads, settings):
    k = settings[b"k"]
    seen = collections.Counter()
    for read in reads:
        for stretch in re.split(rb"[^ACGT]+", read.upper()):
            if len(stretch) >= k:
                seen.update(map(stretch.__getitem__, map(slice, range(len(stretch) - k + 1), range(k, len(stretch) + 1))))
    counts = collections.Counter()
    for word, count in seen.items():
        if not settings[b"apart"]:
            word = min(word, word.translate(COMPLEMENT)[::-1])
        counts[word] += count
    return b"".join(b"%s\t%d\n" % (word, min(count, settings[b"cs"]))
                    for word, count in sorted(counts.items()) if settings[b"ci"] <= count <= settings[b"cx"])


def answer_of(words, text):
    """Status, standard output and standard error."""
    try:
        settings = settings_of(words)
        reads = (fasta_reads if settings[b"fasta"] else fastq_reads)(lines_of(text))
        return 0, dump_of(reads, settings), b""
    except Refused as refused:
        line, status = refused.args
        return status, b"", line + b"\n"


# ---- texts

BASES = bytes(b"ACGT"[byte & 3] for byte in range(256))
MIXED = bytes((b"ACGT" * 11 + b"acgt" * 4 + b"NNnR")[byte & 63] for byte in range(256))
POOR = bytes(b"AC"[byte & 1] for byte in range(256))
NOISE = b"@@@+++>>;\n\n\n\n\n\r\rACGTACGTNacgt\0\xff \t"


def sequence(source, length):
    kind = source.random()
    if kind < 0.5:
        return source.randbytes(length).translate(BASES)
    if kind < 0.7:
        return source.randbytes(length).translate(MIXED)
    if kind < 0.8:
        return source.randbytes(length).translate(POOR)
    if kind < 0.95:
        period = source.randbytes(source.randint(1, 7)).translate(BASES)
        return (period * length)[:length]
    return source.randbytes(length).replace(b"\n", b"N").replace(b"\r", b"N")


def reverse(read):
    return read.translate(COMPLEMENT)[::-1]


def reads_for(source, k, number):
    """Reads that share words: parts of one sequence, of either strand, and some of their own."""
    lengths = (0, 1, k - 1, k, k + 1, k + 10, 2 * k, 60, 100, k + 255, k + 256, 300)
    genome = sequence(source, source.choice((20, 80, 200)) + k)
    for _ in range(number):
        length = source.choice(lengths[:9] if source.random() < 0.9 else lengths)
        if source.random() < 0.25:
            yield sequence(source, length)
            continue
        start = source.randrange(len(genome))
        read = genome[start:start + length]
        yield reverse(read) if source.random() < 0.4 else read


def end(source, style):
    return source.choice((b"\n", b"\r\n")) if style == 2 else (b"\n", b"\r\n")[style]


def blank(source, style, chance):
    return end(source, style) * source.randint(1, 3) if source.random() < chance else b""


def fastq_text(source, k, number):
    style = source.choice((0, 0, 0, 1, 2))
    chance = source.choice((0, 0, 0.3))
    records = [blank(source, style, chance)]
    for place, read in enumerate(reads_for(source, k, number)):
        plus = source.choice((b"", b"", b"r", b"@", b"\0 x"))
        records += [b"@r%d" % place, end(source, style), read, end(source, style), b"+" + plus, end(source, style),
                    source.choice((b"I", b"@", b"+", b">")) * len(read), end(source, style), blank(source, style, chance)]
    return b"".join(records)


def fasta_text(source, k, number):
    style = source.choice((0, 0, 0, 1, 2))
    chance = source.choice((0, 0, 0.3))
    width = source.choice((1, 3, 60, 10**9))
    records = [blank(source, style, chance)]
    for place, read in enumerate(reads_for(source, k, number)):
        records += [b">r%d" % place, end(source, style)]
        for start in range(0, len(read), width):
            records += [read[start:start + width], end(source, style), blank(source, style, chance)]
            if source.random() < 0.02:
                records += [b";" + read[:3], end(source, style)]
    return b"".join(records)


def noise_text(source, k, number):
    return bytes(source.choices(NOISE, k=source.randint(0, 40)))


def headers_text(source, k, number):
    return b"".join(source.choice((b"@", b">", b"@x", b">y", b"+", b"")) + source.choice((b"\n", b"\n", b"\r\n"))
                    for _ in range(number))


# one fault into a list of lines, at a place that holds one

def drop_line(source, lines, place):
    del lines[place]


def double_line(source, lines, place):
    lines.insert(place, lines[place])


def swap_lines(source, lines, place):
    lines[place], lines[0] = lines[0], lines[place]


def blank_line(source, lines, place):
    lines.insert(place, source.choice((b"", b"\r", b"\r\r", b" ")))


def longer_line(source, lines, place):
    ends = lines[place].endswith(b"\r")
    lines[place] = lines[place][:len(lines[place]) - ends] + b"I" + b"\r" * ends


def shorter_line(source, lines, place):
    lines[place] = lines[place][1:] if source.random() < 0.5 else lines[place][:-1]


def return_in_line(source, lines, place):
    at = source.randint(0, len(lines[place]))
    lines[place] = lines[place][:at] + b"\r" + lines[place][at:]


def byte_in_line(source, lines, place):
    if lines[place]:
        at = source.randrange(len(lines[place]))
        byte = source.choice((bytes((source.randrange(256),)), b"N", b"\0", b"\xc3", b">", b"@", b"+", b";"))
        lines[place] = lines[place][:at] + byte + lines[place][at + 1:]


def comment_line(source, lines, place):
    lines.insert(place, source.choice((b";", b";ACGT", b"; a comment", b"#")))


def lower_line(source, lines, place):
    lines[place] = lines[place].lower()


def cut_text(source, lines, place):
    text = b"\n".join(lines)
    lines[:] = text[:source.randint(0, len(text))].split(b"\n")


def end_text(source, lines, place):
    if lines[-1] == b"":
        lines.pop()


def return_at_end(source, lines, place):
    lines[-1] += b"\r"


FAULTS = (drop_line, double_line, swap_lines, blank_line, blank_line, longer_line, shorter_line, return_in_line,
          byte_in_line, comment_line, lower_line, cut_text, cut_text, end_text, return_at_end)


def small_text(source, k):
    make = source.choice((fastq_text,) * 20 + (fasta_text,) * 16 + (noise_text,) * 3 + (headers_text,))
    text = make(source, k, source.choice((0, 1, 2, 2, 3, 4, 6, 9)))
    lines = text.split(b"\n")
    for _ in range(source.choice((0, 0, 0, 0, 1, 1, 1, 2, 3))):
        lines = lines or [b""]
        source.choice(FAULTS)(source, lines, source.randrange(len(lines)))
    return make is fasta_text, b"\n".join(lines)


def middle_text(source, k, kind):
    """Some 100 KB: more reads than a chunk has, more bytes than a buffer holds, a fault far down."""
    if kind % 5 == 0:
        return False, b"@\n\n+\n\n" * source.randint(4000, 20000) + source.choice((b"", b"@r\nACGT\n+\nIIII", b"x\n"))
    if kind % 5 == 1:
        return True, b">\n" * source.randint(4000, 20000) + sequence(source, 1000)
    if kind % 5 == 2:
        return False, b"\n" * source.randint(4000, 200000) + fastq_text(source, k, 200)
    if kind % 5 == 3:
        return True, b">g\n" + b"\n".join(sequence(source, 70) for _ in range(1500))
    lines = fastq_text(source, k, 4300).split(b"\n")
    source.choice(FAULTS)(source, lines, source.randrange(len(lines)))
    return False, b"\n".join(lines)


def great_text(source, kind):
    """A line, or a row of lines, of some 10^7 bytes."""
    size = source.randint(8 * 10**6, 12 * 10**6)
    period = source.randbytes(source.randint(1, 300)).translate(MIXED)
    long_read = (period * (size // len(period) + 1))[:size]
    return (
        (False, b"@r\n" + long_read + b"\n+\n" + b"I" * size + b"\n"),
        (False, b"@" + b"h" * size + b"\nACGTACGT\n+\nIIIIIIII"),
        (True, b">g\n" + long_read),
        (False, b"@r\n" + long_read + b"\n+\n" + b"I" * (size + 1) + b"\n"),
        (False, b"@r\nACGTACGT\n+" + b"+" * size + b"\r\nIIIIIIII\r\n"),
        (False, b"\n" * size + b"x"),
        (True, b"\0\xff" * (size // 2) + b"\n>g\nACGT"),
        (True, b">g\n" + b"ACGTACGTA\n\r\n" * (size // 12)),
        (False, b"@\n\n+\n\n" * (size // 6) + b"@"),
        (True, b"\r\n" * (size // 2) + b">g\n" + source.randbytes(size // 10).translate(MIXED)),
    )[kind % 10]


# ---- option lines

def spelled(source, name, value):
    """The option as one word or two."""
    if source.random() < 0.1:
        value = b"0" * source.randint(1, 20) + value
    return source.choice(([b"-" + name + value],) * 3 + ([b"--" + name + b"=" + value], [b"--" + name, value]))


def good_values(source):
    """Values in range of some of the options."""
    values = {
        b"k": source.choice((1, 2, 3, 4, 5, 7, 9, 12, 25, 31, 32, 33, 63, 64, source.randint(1, 64))),
        b"p": source.randint(5, 11),
        b"n": source.choice((1, 2, 64, 512, 2000, source.randint(1, 2000))),
        b"ci": source.choice((0,) + (1,) * 8 + (2,) * 4 + (3, 5, FULL)),
        b"cx": source.choice((10**9, 10**9, FULL, FULL, 5, 2, 1, 0)),
        b"cs": source.choice((255, FULL, 1, 2, 3)),
        b"sp": source.choice((1, 1, 1, 2, 3, 4) + (16,) * (source.random() < 0.05)),
        b"sr": source.choice((1, 1, 1, 2, 3, 4) + (16,) * (source.random() < 0.05)),
    }
    keep = {b"k": 0.9, b"ci": 0.9, b"cx": 0.3, b"sp": 0.7, b"sr": 0.7}
    return {name: value for name, value in values.items() if source.random() < keep.get(name, 0.4)}


WRONG_WORDS = (b"reads.fq", b"-h", b"--help", b"-V", b"--version", b"-fast", b"-bx", b"-m12", b"-sm", b"-t4", b"-r", b"-v",
               b"--kk=5", b"-", b"--", b"---", b"", b"help", b"-fam", b"--fa=", b"--b=x", b"--=", b"--=5", b"---k=5", b"-K5",
               b"--K=5", b"k5", b"=5", b"--k", b"--ci", b"--sr", b"-k", b"-ci", b"-s", b"-c", b"-\xc3\x9fk3", b"-k\xff", b"\xfe",
               b"--fq --b", b" -k5", b"-f", b"--f", b"--cs2", b"-k 5")
WRONG_VALUES = (b"x", b"-3", b"+5", b"=5", b"2.5", b"1e3", b"0x5", b" 5", b"5 ", b"\xd9\xa3", b"18446744073709551616",
                b"18446744073709551615", b"9" * 40, b"5\n", b"5k", b"-", b"--", b"9223372036854775809")


def bad_value(source, name):
    least, most, _ = RANGES[name]
    edges = [b"%d" % (most + 1)] + [b"%d" % (least - 1)] * (least > 0)
    return source.choice(tuple(edges) * 4 + WRONG_VALUES)


def spoiled(source, groups):
    """The groups of words with one to three things wrong, or with one that only looks so."""
    for _ in range(source.choice((1, 1, 1, 2, 3))):
        name = source.choice(tuple(RANGES))
        kind = source.random()
        if kind < 0.35:
            groups = [group for group in groups if not group[0].lstrip(b"-").startswith(name)]
            groups.append(spelled(source, name, bad_value(source, name)))
        elif kind < 0.6:
            groups.append([source.choice(WRONG_WORDS)])
        elif kind < 0.7:
            groups.append(spelled(source, name, b"%d" % RANGES[name][2]))
        elif kind < 0.8:
            groups.append([source.choice((b"-", b"--")) + source.choice(FLAGS)])
        elif kind < 0.9:
            groups.append([b"--" + name + b"="] if source.random() < 0.5 else [b"--" + name, b""])
        else:
            groups.append([source.choice((b"-", b"--")) + name])
        if source.random() < 0.7:
            source.shuffle(groups)
    return groups


def option_line(source, is_fasta, values, is_small):
    groups = [spelled(source, name, b"%d" % value) for name, value in values.items()]
    if is_small and source.random() < 0.02:
        is_fasta = not is_fasta
    if is_fasta:
        groups.append([source.choice((b"-fa", b"-fm", b"--fa", b"--fm"))])
    elif source.random() < 0.3:
        groups.append([source.choice((b"-fq", b"--fq"))])
    if source.random() < 0.25:
        groups.append([source.choice((b"-b", b"--b"))])
    source.shuffle(groups)
    if is_small and source.random() < 0.15:
        groups = spoiled(source, groups)
    elif source.random() < 0.03:
        groups.append([b"--"])
    return [word for group in groups for word in group]


def trial(seed, number):
    """Words, text, and whether it comes through a pipe in blocks."""
    source = random.Random("%d %d" % (seed, number))
    values = good_values(source)
    k = values.get(b"k", 25)
    is_small = False
    if number % 10000 == 9999:
        is_fasta, text = great_text(source, number // 10000)
        if number // 10000 % 10 == 9:  # few words, so that the model's list of them is short
            values[b"k"] = source.randint(1, 8)
    elif number % 500 == 250:
        is_fasta, text = middle_text(source, k, number // 500)
    else:
        is_small = True
        is_fasta, text = small_text(source, k)
    return option_line(source, is_fasta, values, is_small), text, source.random() < 0.1


# ---- the program

def memory_file(content=b""):
    file = os.memfd_create("text")
    while content:
        content = content[os.write(file, content):]
    os.lseek(file, 0, os.SEEK_SET)
    return file


def content_of(file):
    size = os.fstat(file).st_size
    return os.pread(file, size, 0) if size else b""


def feed(pipe, text):
    """The text in blocks of some bytes, as far as the program takes it."""
    size = max(1, len(text) // 7)
    try:
        for start in range(0, len(text), size):
            block = text[start:start + size]
            while block:
                block = block[os.write(pipe, block):]
    except BrokenPipeError:
        pass
    os.close(pipe)


def run(words, text, in_blocks, environment=os.environ, more_files=(), program=KMC):
    """Status, standard output and standard error; the status is negative where a signal ended the program."""
    out, err = memory_file(), memory_file()
    given, pipe = os.pipe() if in_blocks else (memory_file(text), None)
    process = os.posix_spawn(program, [b"kmc"] + words, environment, file_actions=[
        (os.POSIX_SPAWN_DUP2, file, place) for file, place in ((given, 0), (out, 1), (err, 2)) + more_files])
    os.close(given)
    signal.signal(signal.SIGALRM, lambda *_: os.kill(process, signal.SIGKILL))
    signal.alarm(SECONDS)
    if in_blocks:
        feed(pipe, text)
    _, status = os.waitpid(process, 0)
    signal.alarm(0)
    answer = os.waitstatus_to_exitcode(status), content_of(out), content_of(err)
    os.close(out)
    os.close(err)
    return answer


# ---- the tries

def is_wrong(words, text, in_blocks):
    return run(words, text, in_blocks) != answer_of(words, text)


def smaller(words, text, in_blocks):
    """A part of the text whose answer is wrong too."""
    size = len(text) // 2
    while size:
        start = 0
        while start < len(text):
            less = text[:start] + text[start + size:]
            if is_wrong(words, less, in_blocks):
                text = less
            else:
                start += size
        size //= 2
    return text


def shortened(content):
    return repr(content if len(content) <= 400 else content[:200] + b" .. " + content[-200:])


def report(seed, number, words, text, in_blocks):
    if len(text) < 10**5:
        text = smaller(words, text, in_blocks)
    path = os.path.join(tempfile.gettempdir(), "kmc_fuzz_%d_%d" % (seed, number))
    with open(path, "wb") as file:
        file.write(text)
    expected, found = answer_of(words, text), run(words, text, in_blocks)
    return "\n".join((
        "fuzz: try %d is wrong, options %s, text in %s: %s" % (number, words, path, shortened(text)),
        "  wanted status %d, output %s, error %s" % (expected[0], shortened(expected[1]), shortened(expected[2])),
        "  it was status %d, output %s, error %s" % (found[0], shortened(found[1]), shortened(found[2]))))


def tried(task):
    """The reports of the wrong answers of a chunk of tries, and how many answers of each kind there were."""
    seed, numbers = task
    wrong, kinds = [], collections.Counter()
    for number in numbers:
        words, text, in_blocks = trial(seed, number)
        expected, found = answer_of(words, text), run(words, text, in_blocks)
        kind = re.sub(rb"\d+|-[a-z]+ is", b"..", found[2]).decode(errors="replace").strip().split(" [")[0]
        kinds[kind or ("a dump" if found[1] else "an empty dump")] += 1
        if found != expected:
            wrong.append(report(seed, number, words, text, in_blocks))
    return wrong, kinds


def show(seed, number):
    words, text, in_blocks = trial(seed, number)
    print("options", words, "in blocks" if in_blocks else "from a file")
    print("text", shortened(text))
    print("wanted", [shortened(part) if isinstance(part, bytes) else part for part in answer_of(words, text)])
    print("it was", [shortened(part) if isinstance(part, bytes) else part for part in run(words, text, in_blocks)])
    return is_wrong(words, text, in_blocks)


def main():
    asked = argparse.ArgumentParser(description=__doc__.splitlines()[0])
    asked.add_argument("--seed", type=int, default=1)
    asked.add_argument("--tries", type=int, default=100000)
    asked.add_argument("--workers", type=int, default=min(4, os.cpu_count() or 1))
    asked.add_argument("--only", type=int)
    asked = asked.parse_args()
    if asked.only is not None:
        wrong = int(show(asked.seed, asked.only))
        print("1 tried, %d wrong" % wrong)
        sys.exit(min(wrong, 1))
    print("fuzz: seed %d, %d tries by %d workers" % (asked.seed, asked.tries, asked.workers), flush=True)
    tasks = [(asked.seed, range(start, min(start + CHUNK, asked.tries))) for start in range(0, asked.tries, CHUNK)]
    kinds, wrong = collections.Counter(), 0
    with multiprocessing.Pool(asked.workers) as pool:
        for reports, found in pool.imap_unordered(tried, tasks):
            kinds += found
            wrong += len(reports)
            for text in reports:
                print(text, flush=True)
    for kind, number in kinds.most_common():
        print("fuzz: %7d answers: %s" % (number, kind))
    print("%d tried, %d wrong" % (sum(kinds.values()), wrong))
    sys.exit(1 if wrong else 0)


if __name__ == "__main__":
    main()
