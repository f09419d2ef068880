"""Files as they come: plain ones, several, many, missing ones, odd names, pipes, and what is wrong in them."""
import os
import threading

from room import READS, content, plainly, wanted_dump


def thirds():
    """The example in three texts cut between records; the second lacks its last line feed."""
    lines = content(READS).splitlines(keepends=True)
    return [b"".join(lines[:320]), b"".join(lines[320:640])[:-1], b"".join(lines[640:])]


def as_fasta(text):
    """FASTQ as FASTA, two lines a sequence."""
    lines = text.split(b"\n")
    return b"".join(b">%d\n%b\n%b\n" % (number, read[:60], read[60:]) for number, read in enumerate(lines[1::4]))


def test_one_plain_file_is_counted(room):
    room.counts(wanted_dump(), "count", "-k25", READS)
    room.counts(plainly(content(READS), 31), "count", READS)
    room.counts(plainly(content(READS), 31, 3, 9, 7), "count", "--min", "3", "--max=9", "--cap", "7", READS)
    room.counts(plainly(content(READS), 12, 2, 10**9, 255, "apart"), "count", "-k", "12", "--forward", READS)
    room.counts(plainly(content(READS), 12), "count", "-k", "12", "--both-strands", "--threads", "1", READS)


def test_kmcs_words_are_taken(room):
    room.counts(plainly(content(READS), 20, 3, 9, 7), "count", "-k20", "-ci3", "-cx9", "-cs7", "-fq", "-sp2", "-sr1", "-p7", "-n64", READS)
    room.refuses(1, "is FASTQ, and the option says FASTA", words=["count", "-fm", READS])


def test_several_files_are_one(room):
    names = [room.write("part %d" % number, text) for number, text in enumerate(thirds())]
    room.counts(wanted_dump(), "count", "-k25", *names)
    names[1:1] = [room.write("empty", b""), room.write("blank", b"\n\n")]
    room.counts(wanted_dump(), "count", "-k25", *names)


def test_fasta_of_several_lines(room):
    text = as_fasta(content(READS))
    room.counts(wanted_dump(), "count", "-k25", room.write("reads.fa", text))
    middle = text.index(b">90\n")
    room.write("a.fa", text[:middle - 1])
    room.write("b.fa", b"\r\n" + text[middle:])
    room.counts(wanted_dump(), "count", "-k25", "a.fa", "b.fa")


def test_a_sequence_ends_with_its_file(room):
    room.write("a.fa", b">a\nACGTA\nCGT")
    room.write("b.fa", b">b\nACGTACG")
    # the words of ACGTACGT and ACGTACG, strands joined, by hand: ACG with CGT, GTA with TAC
    room.counts(b"ACG\t7\nGTA\t4\n", "count", "-k3", "--min", "1", "a.fa", "b.fa")
    room.refuses(1, "a.fa is FASTA, and the option says FASTQ", words=["count", "-fq", "a.fa"])


def test_names_may_be_odd(room):
    names = ["a b", " ", "it's", 'two "quotes"', "line\nfeed", "-leading", "*", "$HOME", "tab\there", "ümlaut", os.fsdecode(b"not\xffutf8"), "a;b|c", "--"]
    lines = content(READS).splitlines(keepends=True)
    for number, name in enumerate(names):
        room.write(name, b"".join(lines[4 * number::1][:4] if number + 1 < len(names) else lines[4 * number:]))
    room.counts(wanted_dump(), "count", "-k25", "--", *names)
    room.write("faulty\nname", b"@r\nAC\n+\nI\n")
    room.refuses(1, repr("faulty\nname"), "line 4", words=["count", "faulty\nname"])
    room.refuses(1, repr("no\nfile"), words=["count", "no\nfile"])
    room.counts(b"", "count", "-o", "out put\n", "--", *names)
    assert len(content(room.path("out put\n"))) > 0


def test_two_thousand_files(room):
    lines = content(READS).splitlines(keepends=True)
    records = [b"".join(lines[place:place + 4]) for place in range(0, len(lines), 4)]
    os.mkdir(room.path("many"))
    names = [room.write("many/%04d" % number, records[number] if number < len(records) else b"") for number in range(2000)]
    room.counts(wanted_dump(), "count", "-k25", *names)


def test_standard_input_may_be_a_file_or_a_pipe(room):
    for words in ([], ["-"]):
        room.counts(wanted_dump(), "count", "-k25", *words, text=content(READS))
        with open(READS, "rb") as source:
            room.counts(wanted_dump(), "count", "-k25", *words, source=source)
    texts = thirds()
    room.write("one", texts[0])
    room.write("three", texts[2])
    room.counts(wanted_dump(), "count", "-k25", "one", "-", "three", text=texts[1])
    with open(READS, "rb") as source:
        source.seek(len(texts[0]))
        room.counts(plainly(texts[1] + b"\n" + texts[2], 25), "count", "-k25", source=source)
    room.counts(b"", "count", text=b"", told="futoncrane: standard input: there are no reads, so no k-mer is listed\n")


def test_a_named_pipe_is_read_once(room):
    os.mkfifo(room.path("pipe"))
    for words in (["pipe"], ["empty", "pipe"]):
        room.write("empty", b"")
        writer = threading.Thread(target=lambda: room.write("pipe", content(READS)), daemon=True)
        writer.start()
        room.counts(wanted_dump(), "count", "-k25", *words)
        writer.join()


def test_what_cannot_be_read_is_named(room):
    room.write("good", content(READS))
    room.refuses(1, "missing.fastq: No such file or directory", words=["count", "good", "missing.fastq", "-o", "out"])
    os.mkdir(room.path("folder"))
    room.refuses(1, "folder: it is a folder", words=["count", "good", "folder"])
    room.write("text", b"ACGT\n")
    room.refuses(1, "text: it is neither FASTA nor FASTQ", words=["count", "good", "text"])
    room.refuses(1, "standard input: it is neither", words=["count", "-"], text=b"hello\n")
    room.write("a.fa", b">a\nACGT\n")
    room.refuses(1, "good is FASTQ, and a.fa is FASTA", words=["count", "good", "a.fa", "-o", "out"])


def test_a_fault_of_a_record_is_told_by_file_and_line(room):
    import gzip
    good = room.write("good", content(READS))
    lines = content(READS).count(b"\n")
    room.write("bad", b"@a\nACGT\n+\nIIII\n@b\nACGT\n-\nIIII\n")
    room.write("bad.gz", gzip.compress(content(room.path("bad"))))
    room.write("good.gz", gzip.compress(content(READS)))
    room.refuses(1, "bad: line 7: bad plus line", words=["count", "bad", "-o", "out"])
    room.refuses(1, "bad: line 7: bad plus line", words=["count", good, good, "bad", good])
    room.refuses(1, "bad.gz: line 7: bad plus line", words=["count", "good.gz", good, "bad.gz", good])
    room.refuses(1, "standard input: line 7: bad plus line", words=["count", good, "-"], text=content(room.path("bad")))
    room.write("cut", b"".join(content(READS).splitlines(keepends=True)[:-1]))
    room.refuses(1, "cut: line %d: record cut short" % lines, words=["count", "cut"])
    room.refuses(1, "good: line", "or cut ends within a record", words=["count", "cut", "good"])
    room.refuses(1, "or cut ends within a record", words=["count", "good", "cut", room.write("empty", b"")])
    room.write("cut.fastq", content(READS)[:-1])
    room.write("short.fastq", content(READS)[:-2])
    room.counts(wanted_dump(), "count", "-k25", "cut.fastq")
    room.refuses(1, "short.fastq: line %d: quality length differs" % lines, words=["count", "short.fastq", "cut.fastq"])


def test_programs_that_are_not_there_are_told(room):
    os.mkdir(room.path("bin"))
    room.environment["FUTONCRANE_BIN"] = room.path("bin")
    room.refuses(1, "the program kmc is not there", words=["count", READS])


def test_a_program_that_is_killed_is_told(room):
    room.stand_in("#!/bin/sh\nkill -KILL $$\n")
    room.refuses(1, "kmc was ended by SIGKILL", words=["count", READS, "-o", "out"])
    room.stand_in("#!/bin/sh\ncat > /dev/null\nprintf 'ACGT\\t1\\n'\nkill -SEGV $$\n")
    room.refuses(1, "kmc was ended by SIGSEGV", words=["count", READS, "-o", "out"])
    room.stand_in("#!/bin/sh\ncat > /dev/null\nprintf '1\\t'\nkill -SEGV $$\n", "kmc_db")
    room.refuses(1, "kmc_db was ended by SIGSEGV", words=["histogram", READS])
