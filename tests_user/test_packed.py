"""Packed files: each kind, by programs and by Python alone, cut short, damaged, and of several members."""
import bz2
import gzip
import lzma
import os
import shutil
import subprocess

from room import READS, content, need, wanted_dump
from test_reading import thirds

PACKERS = {"gz": gzip.compress, "bz2": bz2.compress, "xz": lzma.compress}


def zstd(text):
    need("zstd")
    return subprocess.run(["zstd", "-cq"], input=text, stdout=subprocess.PIPE, check=True).stdout


def counts_packed(room, end, pack):
    """One file, under a name that tells nothing, from a pipe, and among others."""
    texts = thirds()
    room.counts(wanted_dump(), "count", "-k25", room.write("reads." + end, pack(content(READS))))
    room.write("second", pack(texts[1]))
    room.write("first one", texts[0])
    room.write("third." + end, pack(texts[2]))
    room.counts(wanted_dump(), "count", "-k25", "first one", "second", "third." + end)
    room.counts(wanted_dump(), "count", "-k25", "first one", "-", "third." + end, text=pack(texts[1]))
    with open(room.path("reads." + end), "rb") as source:
        room.counts(wanted_dump(), "count", "-k25", source=source)


def test_gzip_is_unpacked(room):
    counts_packed(room, "gz", gzip.compress)


def test_bzip2_is_unpacked(room):
    counts_packed(room, "bz2", bz2.compress)


def test_xz_is_unpacked(room):
    counts_packed(room, "xz", lzma.compress)


def test_zstd_is_unpacked(room):
    counts_packed(room, "zst", zstd)


def alone(room, *programs):
    """Has PATH name nothing but these programs."""
    os.makedirs(room.path("alone"), exist_ok=True)
    for it in programs:
        os.symlink(shutil.which(it), room.path("alone/" + it))
    room.environment["PATH"] = room.path("alone")


def test_python_unpacks_where_no_program_does(room):
    alone(room)
    for end, pack in PACKERS.items():
        counts_packed(room, end, pack)
        packed = pack(content(READS))
        room.write("cut." + end, packed[:len(packed) * 2 // 3])
        room.refuses(1, "cut." + end, "ends early", words=["count", "cut." + end, "-o", "out"])
    room.refuses(1, "zstd is not installed", words=["count", room.write("a.zst", b"\x28\xb5\x2f\xfd12345678")])
    room.counts(b"", "count", "-k25", "-o", "dump.gz", READS)
    assert gzip.decompress(content(room.path("dump.gz"))) == wanted_dump()


def test_gzip_alone_unpacks(room):
    need("gzip")
    alone(room, "gzip")
    counts_packed(room, "gz", gzip.compress)


def test_several_members_are_all_read(room):
    texts = thirds()
    room.write("members.gz", gzip.compress(texts[0]) + gzip.compress(b"") + gzip.compress(texts[1] + b"\n") + gzip.compress(texts[2]))
    room.counts(wanted_dump(), "count", "-k25", "members.gz")
    room.write("empty first.gz", gzip.compress(b"") + gzip.compress(content(READS)))
    room.counts(wanted_dump(), "count", "-k25", "empty first.gz")


def test_a_gzip_file_cut_at_fifty_places(room):
    packed = gzip.compress(content(READS))
    places = sorted({0, 1, 2, 3, 9, 10, 11, 17, 18, len(packed) - 9, len(packed) - 8, len(packed) - 1} |
                    {len(packed) * number // 39 for number in range(1, 39)})
    assert len(places) == 50
    for place in places:
        room.write("cut.gz", packed[:place])
        room.refuses(1, "cut.gz", words=["count", "cut.gz", "-o", "out"] if place % 2 else ["count", "cut.gz"])


def test_damaged_bytes_are_found(room):
    packed = bytearray(gzip.compress(content(READS)))
    for place in (len(packed) // 2, len(packed) - 6, len(packed) - 3):
        damaged = packed.copy()
        damaged[place] ^= 0x10
        room.write("damaged.gz", bytes(damaged))
        room.refuses(1, "damaged.gz", words=["count", READS, "damaged.gz", READS])
    room.write("rest.gz", bytes(packed) + b"something else")
    room.refuses(1, "rest.gz", words=["count", "rest.gz"])


def test_other_kinds_cut_are_refused(room):
    for end, pack in (("bz2", bz2.compress), ("xz", lzma.compress), ("zst", zstd)):
        packed = pack(content(READS))
        for part in (1, 2, 5):
            room.write("cut." + end, packed[:len(packed) * part // 6])
            room.refuses(1, "cut." + end, words=["count", "cut." + end, "-o", "out"])


def test_an_unpacker_that_is_killed_is_told(room):
    need("sh")
    os.mkdir(room.path("path"))
    for name in ("pigz", "gzip"):
        room.write("path/" + name, b"#!/bin/sh\necho '@r' && kill -KILL $$\n")
        os.chmod(room.path("path/" + name), 0o755)
    room.environment["PATH"] = room.path("path") + ":" + room.environment["PATH"]
    room.write("reads.gz", gzip.compress(content(READS)))
    room.refuses(1, "reads.gz", "SIGKILL", words=["count", "reads.gz", "-o", "out"])
