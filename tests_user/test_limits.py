"""Memory: how a run is judged before it begins, and how a cap is held."""
import json
import os
import shutil
import sys
import types

from room import MOST, READS, content, plainly

from futoncrane import inputs, memory, shared

GB = 1 << 30
REAL = 10**9


def test_the_amount_is_that_of_the_measured_table(room):
    # millions of symbols, listed k-mers, k, threads and the measured peak in millions of bytes: an estimate is above it, and at most a third
    rows = ((50, 0, 25, 2, 74), (150, 0, 25, 2, 157), (150, 5641354, 25, 2, 155), (150, 29698923, 25, 2, 326), (150, 34891176, 50, 2, 650),
            (150, 512, 5, 2, 67), (150, 131072, 9, 2, 65), (150, 524800, 10, 2, 83), (150, 2094953, 11, 2, 254), (150, 6222777, 12, 2, 226),
            (150, 109372927, 25, 2, 1051), (30, 15000000, 25, 2, 164), (30, 15000000, 25, 4, 186), (189, 0, 13, 4, 269), (189, 0, 15, 4, 248),
            (189, 0, 18, 4, 261), (189, 0, 21, 4, 247), (189, 0, 31, 4, 210), (189, 0, 40, 4, 199), (189, 0, 55, 4, 185), (189, 0, 64, 4, 178),
            (189, 36076088, 31, 4, 390), (189, 40417088, 55, 4, 788), (720, 69836305, 31, 4, 799), (720, 24433519, 31, 4, 648),
            (720, 24396837, 25, 4, 707), (100, 49999998, 25, 4, 503), (3600, 122193230, 31, 4, 3209))
    for symbols, listed, k, threads, peak in rows:
        found = memory.wanted(symbols * 10**6, listed, k, 255, threads)
        assert peak * 10**6 <= found <= 1.3 * peak * 10**6, (symbols, listed, k, found)
    # and of reads at 30-fold, where the listed k-mers are guessed
    assert 3209 * 10**6 <= memory.wanted(3600 * 10**6, memory.listed_of(3600 * 10**6, "FASTQ", 31, 2), 31, 255, 4) <= 1.3 * 3209 * 10**6


def test_a_run_or_slices_are_chosen(room):
    fits = memory.plan(90 * REAL, 3 * REAL, 31, 255, 8, 256 * GB)
    assert fits.slices == 1 and 80 * REAL < fits.wanted < 120 * REAL
    assert memory.plan(90 * REAL, 3 * REAL, 31, 255, 8, 90 * GB).slices == 2
    # where threads would take more for the usual bins than there is, there are more bins
    assert memory.plan(90 * REAL, 3 * REAL, 31, 255, 8, 32 * GB)[::2] == (8, 512)
    assert memory.plan(90 * REAL, 3 * REAL, 31, 255, 8, 16 * GB)[::2] == (16, 2000)
    assert memory.plan(90 * REAL, 3 * REAL, 31, 255, 1, GB)[::2] == (512, 2000)
    assert memory.plan(90 * REAL, 3 * REAL, 31, 255, 8, GB).slices is None
    assert memory.plan(0, 0, 31, 255, 1, 64 << 20) == (1, 20 * 10**6, 512, 1)
    # short k-mers are all of one slice
    assert memory.plan(90 * REAL, 10**5, 9, 255, 8, 32 * GB).slices == 1
    assert memory.plan(90 * REAL, 10**5, 9, 255, 8, 16 * GB).slices is None
    # more room never wants more slices, and the room of so many slices is enough for each
    before = None
    for room_of_it in range(1, 200):
        found = memory.plan(20 * REAL, REAL, 31, 255, 4, room_of_it * GB // 4).slices or 2048
        assert before is None or found <= before
        before = found
        # two are listed side by side where at most twice as many slices make that fit
        asked = (20 * REAL, REAL, 31, 255, 4)
        one, two = memory.plan(*asked, room_of_it * GB // 4), memory.plan(*asked, room_of_it * GB // 4, 2)
        if one.slices is None or two.at_once == 1:
            assert two == one
        else:
            assert one.slices <= two.slices <= 2 * one.slices
            assert memory.of_slices(two.slices, 2, *asked, two.bins) <= room_of_it * GB // 4


def test_as_many_slices_are_listed_at_a_time_as_fit(room):
    asked = (90 * REAL, 3 * REAL, 31, 255)
    alike, one_large = [10 * REAL] * 8, [66 * REAL] + [2 * REAL] * 7
    assert memory.at_once(alike, *asked, 8, 256 * GB) == memory.at_once(one_large, *asked, 8, 256 * GB) == 4
    assert memory.at_once(alike, *asked, 3, 256 * GB) == 3 and memory.at_once(alike, *asked, 1, 256 * GB) == 1
    assert memory.at_once(alike[:2], *asked, 8, 256 * GB) == 2 and memory.at_once([], *asked, 8, GB) == 1
    # the sum of the largest ones fits
    for sizes in (alike, one_large):
        for room_of_it in range(1, 120):
            many = memory.at_once(sizes, *asked, 8, room_of_it * GB)
            wanted = [sum(memory.listing(*asked, -(-8 // it), size / sum(sizes)) for size in sizes[:it]) for it in (1, 2, 3, 4)]
            assert many == 4 or wanted[many] > room_of_it * GB, (sizes, room_of_it, many)
            assert many == 1 or wanted[many - 1] <= room_of_it * GB
    # of a stream the files of its records tell how much it was
    assert 80 * REAL < memory.symbols_of(sum(alike), 31) < 100 * REAL
    symbols = memory.symbols_of(sum(alike), 31)
    listed = memory.listed_of(symbols, "FASTQ", 31, 2)
    assert memory.at_once(alike, symbols, listed, 31, 255, 8, 256 * GB) == 4 and memory.at_once(alike, symbols, listed, 31, 255, 8, 30 * GB) < 4


def test_counts_are_no_wider_than_they_can_be(room):
    plain = types.SimpleNamespace(is_stream=False, packing=None, bytes=2**32 - 1)
    for others, format_name, wanted in (([], "FASTA", 2**32 - 1), ([], "FASTQ", 2**32 - 1), ([plain], "FASTA", MOST), ([plain], "FASTQ", 2**32 - 1),
                                        ([plain, plain], "FASTQ", MOST)):
        assert inputs.most_count([plain, *others], format_name) == wanted, (len(others), format_name)
    for other in ({"is_stream": True}, {"packing": "gzip"}):
        assert inputs.most_count([types.SimpleNamespace(**{**vars(plain), **other})], "FASTQ") == MOST
    for cap, most, wanted in ((255, MOST, 255), (255, 2**32 - 1, 255), (MOST, 2**32 - 1, 2**32 - 1), (MOST, MOST, MOST)):
        assert shared.cap_of(types.SimpleNamespace(cap=cap, most=most)) == wanted
    # the note has the cap that was asked for, and the greatest count stands as it is
    ran = room.run("count", "-k", "3", "--cap", "none", "-o", "dump", READS)
    assert ran.status == 0 and content(room.path("dump")) == plainly(content(READS), 3, cap=MOST) and json.loads(content(room.path("dump.json")))["cap"] is None, ran


def test_listed_kmers_are_guessed_within_bounds(room):
    assert memory.listed_of(10**9, "FASTA", 31, 1) == 10**9
    assert memory.listed_of(10**9, "FASTQ", 31, 1) <= 10**9
    assert memory.listed_of(10**9, "FASTQ", 31, 50) <= 10**9 // 50
    assert memory.listed_of(10**9, "FASTA", 3, 1) == 64


def test_sizes_are_written_as_people_do(room):
    from futoncrane.options import size
    read = size(64 << 20)
    assert [read("--memory", it) for it in ("8G", "500M", "1.5g", "1TB", "64MiB", "67108864")] == [
        8 * GB, 500 << 20, 3 * GB // 2, 1 << 40, 64 << 20, 64 << 20]
    assert [memory.human(it) for it in (0, 999, 1000, 1 << 20, 3 * GB // 2)] == ["0 bytes", "999 bytes", "0.977 kB", "1 MB", "1.5 GB"]


def test_a_run_that_does_not_fit_is_not_begun(room):
    with open(room.path("big.fastq"), "wb") as file:
        file.write(content(READS))
        file.truncate(4 << 40)
    room.stand_in("#!/bin/sh\ntouch begun\n")
    room.refuses(1, "estimated to take", "--memory allows 1 GB", "1000 slices", words=["count", "--memory", "1G", "big.fastq", "-o", "out"])
    if shutil.disk_usage(room.folder).free < 1 << 40:
        room.refuses(1, "the slices are estimated to take", "on its disk", "--directory", words=["count", "--memory", "60G", "big.fastq", "-o", "out"])
    room.refuses(1, "estimated to take", words=["histogram", "--memory", "1G", "big.fastq"])


def test_a_cap_is_told_to_the_system(room):
    room.stand_in("#!/bin/sh\nulimit -v > told\ncat > /dev/null\n")
    room.counts(b"", "count", "--memory", "1G", "--threads", "2", READS)
    # twice the cap and 10 MB for each of two splitters, two counters and two more threads, in kB
    assert int(content(room.path("told"))) == (2 * GB + 6 * 10 * 10**6) // 1024
    room.counts(b"", "count", READS)
    assert content(room.path("told")) == b"unlimited\n"


def test_a_program_that_takes_more_is_ended(room):
    room.stand_in("#!" + sys.executable + "\nimport time\nheld = bytearray(150 << 20)\ntime.sleep(10000)\n")
    room.refuses(1, "out of memory: kmc took more than --memory 100 MB", words=["count", "--memory", "100M", "--threads", "4", READS, "-o", "out"])


def test_refused_memory_is_explained(room):
    room.stand_in("#!/bin/sh\necho 'kmc: out of memory' >&2\nexit 1\n")
    room.refuses(1, "out of memory: kmc got no more within --memory 1 GB", words=["count", "--memory", "1G", READS, "-o", "out"])
    room.refuses(1, "out of memory: the system gives kmc no more", words=["count", READS, "-o", "out"])


def test_counting_within_a_cap(room):
    room.counts(plainly(content(READS), 31), "count", "--memory", "500M", "--threads", "2", READS)
    assert os.listdir(room.temporary) == []
