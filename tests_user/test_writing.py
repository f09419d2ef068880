"""Where the answer goes: files that are there whole or not at all, packed ones, pipes that close, disks that are full."""
import contextlib
import gzip
import os
import re
import stat
import subprocess

from room import COMMAND, NO_NOTE, READS, Skipped, content, plainly, wanted_dump


def test_a_file_is_written_whole(room):
    room.counts(b"", "count", "-k25", "-o", "dump", READS)
    assert content(room.path("dump")) == wanted_dump()
    room.counts(b"", "count", "-k25", "--output=dump.gz", READS)
    assert gzip.decompress(content(room.path("dump.gz"))) == wanted_dump()
    assert stat.S_IMODE(os.stat(room.path("dump")).st_mode) == 0o666 & ~0o022


def test_an_older_file_stays_after_a_fault(room):
    room.write("dump", b"older")
    os.chmod(room.path("dump"), 0o640)
    room.write("bad", b"@r\nAC\n+\nI\n")
    room.refuses(1, "bad: line 4", words=["count", "bad", "-o", "dump"])
    assert content(room.path("dump")) == b"older"
    room.counts(b"", "count", "-k25", "-o", "dump", READS)
    assert content(room.path("dump")) == wanted_dump() and stat.S_IMODE(os.stat(room.path("dump")).st_mode) == 0o640


def test_links_devices_and_pipes_are_written_through(room):
    room.write("real", b"older")
    os.symlink("real", room.path("link"))
    room.counts(b"", "count", "-k25", "-o", "link", READS)
    assert os.path.islink(room.path("link")) and content(room.path("real")) == wanted_dump()
    room.counts(b"", "count", "-k25", "-o", "/dev/null", READS)
    room.counts(wanted_dump(), "count", "-k25", "-o", "/dev/stdout", READS)
    assert stat.S_ISCHR(os.stat("/dev/null").st_mode)


def test_what_cannot_be_written_is_named(room):
    room.refuses(1, "none/dump: No such file", words=["count", READS, "-o", "none/dump"])
    os.mkdir(room.path("folder"))
    room.refuses(1, "folder: it is a folder", words=["count", READS, "-o", "folder"])
    room.refuses(2, "dump.xz", "not written", words=["count", READS, "-o", "dump.xz"])
    room.write("reads", content(READS))
    os.symlink("reads", room.path("same"))
    room.refuses(2, "same: it is read", words=["count", "reads", "-o", "same"])


def test_a_pipe_that_closes_ends_quietly(room):
    for words in (["count", "-k31", "--min", "1", READS], ["solid", "--min", "1", READS], ["genomescope", "--top", "100000", READS]):
        with subprocess.Popen([*COMMAND, *words], cwd=room.folder, env=room.environment, stdout=subprocess.PIPE, stderr=subprocess.PIPE) as child:
            first = child.stdout.readline()
            child.stdout.close()
            told = child.stderr.read()
        assert (child.returncode, told) == (1, b"") and first.endswith(b"\n"), (words, child.returncode, told)
    assert len(plainly(content(READS), 31, 1)) > 1 << 17


def test_standard_output_that_is_full_is_told(room):
    for words in (["count", READS], ["histogram", READS], ["solid", READS], ["compare", READS + "/../reads.dump", READS + "/../reads.dump"], ["--help"]):
        words = [os.path.normpath(it) if "/" in it else it for it in words]
        with open("/dev/full", "wb") as full:
            ran = subprocess.run([*COMMAND, *words], cwd=room.folder, env=room.environment, stdout=full, stderr=subprocess.PIPE)
        told = re.sub(NO_NOTE, "", ran.stderr.decode())
        assert ran.returncode == 1 and told.startswith("futoncrane: standard output: ") and told.count("\n") == 1, (words, ran)


@contextlib.contextmanager
def small_disk(room, size):
    """A file system in memory with so few bytes."""
    os.mkdir(room.path("disk"))
    made = subprocess.run(["mount", "-t", "tmpfs", "-o", "size=%d" % size, "none", room.path("disk")], stderr=subprocess.PIPE)
    if made.returncode:
        raise Skipped("a small disk cannot be mounted here")
    try:
        yield room.path("disk")
    finally:
        subprocess.run(["umount", "-l", room.path("disk")], check=True)


def test_a_full_disk_is_told_and_left_as_it_was(room):
    with small_disk(room, 1 << 14):
        for words in (["count", "--min", "1", READS, "-o", "disk/dump"], ["solid", READS, "-o", "disk/solid.fa"], ["count", "--min", "1", READS, "-o", "disk/a.gz"],
                      ["genomescope", READS, "--top", "9000", "-o", "disk/histo"]):
            ran = room.run(*words)
            assert ran.status == 1 and ran.err.count("\n") == 1 and "disk/" in ran.err and "o space left" in ran.err, (words, ran)
            assert os.listdir(room.path("disk")) == [], words
        with open(room.path("disk/out"), "wb") as out:
            ran = subprocess.run([*COMMAND, "count", "--min", "1", READS], env=room.environment, stdout=out, stderr=subprocess.PIPE)
        assert ran.returncode == 1 and b"standard output: it cannot be written: no space left" in ran.stderr, ran


def test_a_limit_of_file_sizes_is_told(room):
    import resource
    ran = room.run("count", "--min", "1", READS, "-o", "dump", preexec_fn=lambda: resource.setrlimit(resource.RLIMIT_FSIZE, (4096, 4096)))
    assert ran.status == 1 and ran.err.count("\n") == 1 and ("SIGXFSZ" in ran.err or "cannot be written" in ran.err), ran
    assert not os.path.exists(room.path("dump")) and os.listdir(room.folder) == ["tmp"], os.listdir(room.folder)
