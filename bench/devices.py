#!/usr/bin/env python3
"""Devices that fail at each point of a run of ./kmc, that take or give little, and that never end.

usage: devices.py [--workers N] [--step N]

bench/failing_devices.c, which is compiled here, stands before the C library's read and write. The text is read in three rounds and has a
dump of three waves, each written by one call where all goes well.

- Standard input gives 4096 bytes a read, and read i fails, for every i of the run: the line 'kmc: read failed', status 1, and nothing
  on standard output. This for a text of one read as well.
- Standard output takes j bytes and then fails, or takes none: for every j of a small dump, and of the dump of three waves for each j
  within 60 bytes of a wave's end and for one j in STEP (4999) else. The line is 'kmc: write failed', the status 1, and the first j
  bytes of the dump are out.
- Reads and writes of 1, 7 and 4096 bytes, of the large text 100 and 4096: the whole dump, and status 0.
- Standard input that never ends, of line feeds or of one sequence, under a limit on memory: the program does not end by itself and
  writes nothing within two seconds, or ends for want of memory, with its line.

The dumps are those of the model in fuzz.py. The variable KMC names another program.
"""
import argparse
import collections
import multiprocessing
import os
import random
import resource
import subprocess
import sys
import tempfile

sys.dont_write_bytecode = True  # no files beside the scripts
import fuzz

NEAR = 60  # bytes on either side of a wave's end


def one_of_many(number, symbols):
    """FASTQ of so many reads, all but the last one empty: as many words, nearly all different, as that has symbols."""
    read = random.Random(4).randbytes(symbols).translate(fuzz.BASES)
    return b"@r\n\n+\n\n" * (number - 1) + b"@r\n" + read + b"\n+\n" + b"I" * symbols + b"\n"


# options and text
TEXTS = {
    "small": ([b"-k4", b"-ci1", b"-n7"], b"@r\nACGTACGTTTGACGATTACA\n+\nIIIIIIIIIIIIIIIIIIII\n"),
    "three waves": ([b"-k14", b"-ci1", b"-n8", b"-sp1", b"-sr1"], one_of_many(140000, 280000)),
}
DUMPS = {size: fuzz.answer_of(*text)[1] for size, text in TEXTS.items()}


def answer_on(library, size, devices, more_files=()):
    """The answer of a run on devices that fail as these variables say."""
    return fuzz.run(*TEXTS[size], False, dict(os.environ, LD_PRELOAD=library, **devices), more_files)


def wave_ends(library, size):
    """Where in the dump each write of it ends."""
    ends = fuzz.memory_file()
    answer_on(library, size, {"WRITE_ENDS": "yes"}, ((ends, 9),))
    places = [int(line) for line in fuzz.content_of(ends).split()]
    os.close(ends)
    return places


def tried(task):
    """The name of a try, and what is wrong with its answer."""
    library, size, name, devices, status, length, line = task
    answer = answer_on(library, size, devices)
    name = size + ", " + name
    if answer == (status, DUMPS[size][:length], line):
        return name, None
    return name, "%s: %s: status %d and not %d, %d bytes and not %d, error %s" % (
        name, devices, answer[0], status, len(answer[1]), length, fuzz.shortened(answer[2]))


def tasks_of(library, size, step):
    """All tries of a text: the devices, and the status, the length of the dump's front and the line that are wanted."""
    length = len(DUMPS[size])
    reads = -(-len(TEXTS[size][1]) // 4096) + 1
    tasks = []
    for number in range(1, reads + 1):
        tasks.append(("a failed read", {"READ_BLOCK": "4096", "FAIL_READ": str(number)}, 1, 0, b"kmc: read failed\n"))
    tasks.append(("all reads", {"READ_BLOCK": "4096", "FAIL_READ": str(reads + 1)}, 0, length, b""))
    places = set(range(length))
    if length > 10**4:
        places = set(range(0, length, step))
        for end in [0] + wave_ends(library, size):
            places |= set(range(max(0, end - NEAR), min(length, end + NEAR)))
    for place in sorted(places):
        for more in ({}, {"TAKE_NONE": "yes"}):
            tasks.append(("a failed write", dict(more, FAIL_WRITE=str(place)), 1, place, b"kmc: write failed\n"))
    for block in ("1", "7", "4096") if size == "small" else ("100", "4096"):
        for devices in ({"READ_BLOCK": block}, {"WRITE_BLOCK": block}, {"READ_BLOCK": block, "WRITE_BLOCK": block}):
            tasks.append(("blocks", devices, 0, length, b""))
    return [(library, size) + task for task in tasks]


def endless(name, command, options):
    """A run whose input never ends. What is wrong with it."""
    def limited():
        resource.setrlimit(resource.RLIMIT_AS, (10**9, 10**9))

    source = subprocess.Popen(["sh", "-c", command], stdout=subprocess.PIPE, stderr=subprocess.DEVNULL)
    run = subprocess.Popen([fuzz.KMC] + options, stdin=source.stdout, stdout=subprocess.PIPE, stderr=subprocess.PIPE, preexec_fn=limited)
    source.stdout.close()
    try:
        output, error = run.communicate(timeout=2)
        right = run.returncode == 1 and error == b"kmc: out of memory\n"
    except subprocess.TimeoutExpired:
        run.kill()
        output, error = run.communicate()
        right = error == b""
    source.kill()
    source.wait()
    if right and output == b"":
        return name, None
    return name, "%s: status %d, %d bytes, error %s" % (name, run.returncode, len(output), fuzz.shortened(error))


def main():
    asked = argparse.ArgumentParser(description=__doc__.splitlines()[0])
    asked.add_argument("--workers", type=int, default=min(4, os.cpu_count() or 1))
    asked.add_argument("--step", type=int, default=4999)
    asked = asked.parse_args()
    kinds = collections.Counter()
    wrong = 0
    with tempfile.TemporaryDirectory() as work, multiprocessing.Pool(asked.workers) as pool:
        library = os.path.join(work, "failing_devices.so")
        source = os.path.join(os.path.dirname(os.path.abspath(__file__)), "failing_devices.c")
        subprocess.run(["cc", "-Wall", "-Wextra", "-O1", "-shared", "-fPIC", "-o", library, source], check=True)
        answers = []
        for size in TEXTS:
            print("devices: %s: the writes of the dump end at %s" % (size, wave_ends(library, size)))
            answers += pool.map(tried, tasks_of(library, size, asked.step), 8)
        answers.append(endless("endless line feeds", "yes ''", ["-k4"]))
        answers.append(endless("an endless sequence", "printf '>g\\n'; yes ACGTTGCA", ["-fm", "-k4"]))
        answers.append(endless("endless reads", "yes '@r\nACGTACGTTTGA\n+\nIIIIIIIIIIII'", ["-k4"]))
    for name, fault in answers:
        kinds[name] += 1
        if fault:
            wrong += 1
            if wrong <= 20:
                print("devices: " + fault)
    for name in kinds:
        print("devices: %s: %d" % (name, kinds[name]))
    print("%d tried, %d wrong" % (len(answers), wrong))
    sys.exit(1 if wrong else 0)


main()
