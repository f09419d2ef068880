"""Answers that all went well for and that are doubtful are told, in one line."""
import json

from room import READS, content, need

RNA = b">a\nACGUACGUACGUACGUACGUUUUGCA\n"
PROTEIN = b">p\nMKVLAARNDEQGHILKMFPSTWYVEFILPQ\n"


def doubt(room, told, *words, command="count", text=None):
    """That a run is right and tells this, and what it did."""
    ran = room.run(command, *words, text=text)
    assert ran.status == 0 and ran.err.count("\n") == 2 and told in ran.err.splitlines()[0], ran
    ran = room.run(command, *words, "--quiet", "--json", "did.json", text=text)
    assert ran.status == 0 and ran.err == "" and told in json.loads(content(room.path("did.json")))["doubt"], ran


def test_no_reads_are_told(room):
    room.write("empty.fastq", b"")
    room.write("blank.fastq", b"\n\n")
    doubt(room, "empty.fastq: there are no reads", "empty.fastq")
    doubt(room, "empty.fastq and 1 more: there are no reads", "empty.fastq", "blank.fastq")
    doubt(room, "there are no reads", "empty.fastq", command="histogram")
    doubt(room, "standard input: there are no reads", "-", text=b"")
    room.refuses(1, "there is no size: empty.fastq: there are no reads", words=["size", "empty.fastq"])
    room.refuses(1, "nothing has no count", words=["size", "--histogram", room.write("nothing", b"")])


def test_letters_that_are_no_bases_are_told(room):
    room.write("rna.fa", RNA)
    room.write("protein.fa", PROTEIN)
    doubt(room, "rna.fa: it has the letter U, as RNA has", "-k5", "--min", "1", "rna.fa")
    doubt(room, "protein.fa: it has the letters D E F H I K L M, which stand for no base", "protein.fa")
    # a letter of an unsure base now and then is nothing to tell of
    room.write("n.fa", b">a\n" + b"ACGTTGCANN" * 20 + b"\n")
    ran = room.run("count", "-k5", "--min", "1", "n.fa")
    assert ran.status == 0 and ran.err.count("\n") == 1 and ran.out, ran


def test_limits_that_leave_nothing_are_told(room):
    doubt(room, "--min 5 is above --max 3", "--min", "5", "--max", "3", READS)
    doubt(room, "none of 31 symbols A, C, G and T is within --min 500 in", "--min", "500", READS)
    room.write("short.fastq", b"@r\nACGTACGTAC\n+\nIIIIIIIIII\n" * 3)
    doubt(room, "the reads seen have at most 10 symbols, and -k is 31", "short.fastq")
    doubt(room, "the reads seen have at most 10 symbols, and -k is 31", "short.fastq", command="solid")


def test_a_second_peak_is_told_with_its_size(room):
    # counts of a diploid, by hand: errors up to 4, a peak at 12 of k-mers of one copy, one at 22 of those of both
    rows = {1: 9000, 2: 900, 3: 90, 4: 30, 5: 40, 6: 60, 7: 100, 8: 180, 9: 300, 10: 420, 11: 500, 12: 520, 13: 490, 14: 400, 15: 310, 16: 240,
            17: 200, 18: 190, 19: 210, 20: 260, 21: 300, 22: 310, 23: 300, 24: 260, 25: 200, 26: 140, 27: 90, 28: 50, 29: 30, 30: 15}
    name = room.write("diploid", "".join("%d\t%d\n" % it for it in rows.items()))
    words = sum(count * number for count, number in rows.items() if count >= 4)
    ran = room.run("size", "--histogram", name)
    assert b"\nsize\t%d\n" % round(words / 12) in ran.out, ran
    assert "second peak at 22, about twice 12" in ran.err and "the size is %d; --peak 22 takes it" % round(words / 22) in ran.err, ran
    assert "second peak" not in room.run("size", "--peak", "22", "--histogram", name).err
    # the greater one at 22: then the lesser stands at half of it
    rows.update({it: 3 * rows[it] for it in range(18, 31)})
    ran = room.run("size", "--histogram", room.write("diploid", "".join("%d\t%d\n" % it for it in rows.items())))
    assert "second peak at 12, about half 22" in ran.err, ran
    # one peak alone
    rows = {1: 9000, 2: 900, 3: 90, 4: 30, **{it: max(1, 600 - 12 * (it - 20)**2) for it in range(5, 45)}}
    ran = room.run("size", "--histogram", room.write("haploid", "".join("%d\t%d\n" % it for it in rows.items())))
    assert ran.status == 0 and "second peak" not in ran.err, ran
    assert "second peak" not in room.run("size", READS).err


def test_totals_are_jellyfishs(room):
    import subprocess
    need("jellyfish")
    for k in ("21", "31"):
        subprocess.run(["jellyfish", "count", "-m", k, "-C", "-s", "4M", "-o", "counted.jf", READS], cwd=room.folder, check=True)
        told = subprocess.run(["jellyfish", "stats", "counted.jf"], cwd=room.folder, stdout=subprocess.PIPE, check=True).stdout.decode()
        wanted = {line.split(":")[0]: int(line.split()[1]) for line in told.splitlines()}
        for command in ("histogram", "genomescope", "size"):
            ran = room.run(command, "-k", k, "--json", "did.json", READS)
            did = json.loads(content(room.path("did.json")))
            totals = did["totals"]
            assert (totals["met_once"], totals["distinct"], totals["kmers_read"], totals["max_count"]) == (
                wanted["Unique"], wanted["Distinct"], wanted["Total"], wanted["Max_count"]), (totals, wanted)
            assert ": {Total:,} k-mers read, {Distinct:,} distinct, {Unique:,} met once\n".format(**wanted) in ran.err, ran
            assert did["steps"] == ["kmc_db"] and did["command"] == command and did["memory_bytes"] > 1 << 20 and did["bytes_read"] == len(content(READS)), did
        subprocess.run(["jellyfish", "dump", "-L", "3", "-o", "dumped", "counted.jf"], cwd=room.folder, check=True)
        ran = room.run("count", "-k", k, "--min", "3", "-o", "out", "--json", "did.json", READS)
        listed = content(room.path("dumped")).count(b">")
        assert json.loads(content(room.path("did.json")))["totals"]["listed"] == listed and "%s k-mers listed" % format(listed, ",") in ran.err, ran


def test_a_json_that_cannot_be_written_is_told(room):
    ran = room.run("count", "--json", "none/did.json", READS, "-o", "out")
    assert ran.status == 1 and "none/did.json: No such file" in ran.err, ran
