"""Files of slices, byte by byte as docs/DEFINITIONS.md has them; and the memory of the programs that write and read them."""
import os
import random
import re
import struct
import subprocess
import sys

from room import LONG, READS, TOP, content, program

# bytes: what kmc_cut takes at most by one splitter and by four, and what a file that lies is refused within
MOST_OF_CUT, MOST_OF_A_LIE = {1: 50 * 10**6, 4: 150 * 10**6}, 50 * 10**6
# what one splitter takes grows up to this much text; more of it takes no more, but for what differs from run to run
TEXT, DIFFERENCE = 200 * 10**6, 10 * 10**6


def cut(room, prefix, text, *words):
    """The files that kmc_cut makes of the text."""
    done = subprocess.run([program("kmc_cut"), *words, "--force", prefix], cwd=room.folder, input=text, stdout=subprocess.PIPE, stderr=subprocess.PIPE,
                          timeout=LONG, check=False)
    assert (done.returncode, done.stdout, done.stderr) == (0, b"", b""), done
    slices = int(next(it for it in words if it.startswith("-slices"))[len("-slices"):])
    return [content(room.path("%s.%d" % (prefix, number))) for number in range(slices)]


def read_of(*sequences):
    return b"".join(b"@r\n%b\n+\n%b\n" % (it, b"I" * len(it)) for it in sequences)


def worked_file():
    """The bytes of the example in docs/DEFINITIONS.md."""
    text = content(os.path.join(TOP, "docs", "DEFINITIONS.md")).decode()
    lines = text[text.index("4b 4d 43 53 4c 49 43 45"):].split("\n\n")[0].splitlines()
    return b"".join(bytes.fromhex(re.match(r" *((?:[0-9a-f]{2}(?: |$))+)", line)[1]) for line in lines)


def test_the_worked_file_is_cut(room):
    wanted = worked_file()
    assert len(wanted) == 85
    assert cut(room, "a", read_of(b"GGAACCCGAACCGT"), "-k11", "-n7", "-slices1") == [wanted]


def refused(room, name):
    """That kmc_list refuses the file in one line that names it, and writes nothing."""
    done = subprocess.run([program("kmc_list"), "-ci1", name], cwd=room.folder, stdin=subprocess.DEVNULL, stdout=subprocess.PIPE, stderr=subprocess.PIPE,
                          timeout=LONG, check=False)
    is_told = done.stderr.startswith(b"kmc_list: %b: " % name.encode()) and done.stderr.count(b"\n") == 1
    assert (done.returncode, done.stdout, is_told) == (1, b"", True), done


def test_each_byte_left_out_doubled_or_changed_is_refused(room):
    program("kmc_list")
    source = random.Random(5)
    files = [*cut(room, "a", read_of(b"GGAACCCGAACCGT"), "-k11", "-n7", "-slices2"), cut(room, "b", read_of(b"GATTACAGATTACAGCCTGA"), "-k11", "-n5", "-slices1")[0]]
    for whole in files:
        assert 44 <= len(whole) <= 160, len(whole)
        for place, byte in enumerate(whole):
            front, rest = whole[:place], whole[place + 1:]
            for other in (b"", bytes([byte, byte]), bytes([byte ^ 1 << source.randrange(8)])):
                room.write("other", front + other + rest)
                refused(room, "other")


def check_word(seed, body):
    """MurmurHash64A, as docs/DEFINITIONS.md has it."""
    factor, whole = 0xC6A4A7935BD1E995, 1 << 64
    state = seed ^ len(body) * factor % whole
    for place in range(0, len(body) - 7, 8):
        word = int.from_bytes(body[place:place + 8], "little") * factor % whole
        word = (word ^ word >> 47) * factor % whole
        state = (state ^ word) * factor % whole
    rest = body[len(body) // 8 * 8:]
    if rest:
        state = (state ^ int.from_bytes(rest, "little")) * factor % whole
    state = (state ^ state >> 47) * factor % whole
    return state ^ state >> 47


def framed(number, body):
    return struct.pack("<HHIQ", number, 0, len(body), check_word(number, body)) + body


def test_records_of_another_bin_are_told_with_their_place(room):
    program("kmc_list")
    whole = worked_file()
    # the records of ACCCGAACCGT, which is a word of bin 1, and of GGAACCCGAAC, a word of bin 0; that of the worked file in bin 0
    first, second, worked = b"\0\x15\x81\x6c", b"\0\xa0\x56\4", b"\2\xa0\x56\5\x80"
    header, end = whole[:28], struct.pack("<HHIQ", 65535, 0, 0, 2)
    assert header + framed(0, worked) + framed(1, first) + end == whole
    for bodies, told in (((first, first), "bin 0: the record at byte 0 has words of another bin"), ((second, first + second), "bin 1: the record at byte 4 has words of another bin"),
                         ((second[:1], second), "bin 0: the record at byte 0 is damaged"), ((second, first + first[:1]), "bin 1: the record at byte 4 is damaged")):
        room.write("a", header + framed(0, bodies[0]) + framed(1, bodies[1]) + end)
        done = subprocess.run([program("kmc_list"), "-ci1", "a"], cwd=room.folder, stdin=subprocess.DEVNULL, stdout=subprocess.PIPE, stderr=subprocess.PIPE,
                              timeout=LONG, check=False)
        assert (done.returncode, done.stdout, done.stderr.decode()) == (1, b"", "kmc_list: %s\n" % told), done


def test_the_file_that_is_not_made_or_not_written_is_named(room):
    room.write("a.1", "mine")
    for words, told in (([], "kmc_cut: a.1: cannot be made; one that is there is written over with --force alone\n"), (["--force"], "kmc_cut: a.2: cannot be written\n")):
        done = subprocess.run([program("kmc_cut"), "-slices3", *words, "a"], cwd=room.folder, input=content(READS), stdout=subprocess.PIPE, stderr=subprocess.PIPE,
                              timeout=LONG, check=False)
        assert (done.returncode, done.stdout, done.stderr.decode()) == (1, b"", told), done
        # a device that is full stands where the next cut writes its last file
        for number in range(3):
            if os.path.exists(room.path("a.%d" % number)) and number != 1:
                os.remove(room.path("a.%d" % number))
        os.symlink("/dev/full", room.path("a.2"))
        assert content(room.path("a.1")) == b"mine" or words


def peak(words, room, source):
    """The status of a program, what it told, and the bytes of memory that it took at most. Its input is an open file."""
    # a process of its own, since what is asked for is the greatest of all children
    script = ("import resource, subprocess, sys\n"
              "status = subprocess.run(sys.argv[1:]).returncode\n"
              "print(status, 1024 * resource.getrusage(resource.RUSAGE_CHILDREN).ru_maxrss)\n")
    done = subprocess.run([sys.executable, "-S", "-c", script, *words], cwd=room.folder, stdin=source, stdout=subprocess.PIPE, stderr=subprocess.PIPE,
                          timeout=LONG, check=True)
    status, most = done.stdout.split()
    return int(status), done.stderr.decode(), int(most)


def test_a_frame_that_lies_takes_no_memory(room):
    whole = cut(room, "a", read_of(b"ACGTACGT"), "-k4", "-n7", "-slices1")[0]
    header, frame = whole[:28], whole[28:]
    bin_of_it, _, _, check = struct.unpack("<HHIQ", frame[:16])
    # the greatest body there is, the greatest that the field of its length can say, as many frames as would have 16 GB, and an end of many frames
    for name, length, bodies in (("a MB", 1 << 20, 1), ("above", (1 << 20) + 1, 1), ("16 GB", (1 << 32) - 1, 4)):
        frames = b"".join(struct.pack("<HHIQ", bin_of_it, 0, length, check) + frame[16:18] for _ in range(bodies))
        room.write(name, header + frames)
        assert len(header + frames) <= 100
        status, told, most = peak([program("kmc_list"), name], room, subprocess.DEVNULL)
        assert status == 1 and told.startswith("kmc_list: %s: " % name) and told.count("\n") == 1 and most < MOST_OF_A_LIE, (name, status, told, most)
    room.write("end", header + struct.pack("<HHIQ", 65535, 0, 0, (1 << 64) - 1))
    status, told, most = peak([program("kmc_list"), "end"], room, subprocess.DEVNULL)
    assert status == 1 and told.startswith("kmc_list: end: ") and most < MOST_OF_A_LIE, (status, told, most)


def test_cutting_takes_no_more_memory_for_more_reads(room):
    program("kmc_cut")
    text = subprocess.run([sys.executable, os.path.join(TOP, "bench", "simulate_reads.py"), "50000", "100", "500000", "3"], stdout=subprocess.PIPE,
                          check=True).stdout
    peaks = []
    for splitters, size in ((1, TEXT), (1, 2 * TEXT), (4, TEXT)):
        with subprocess.Popen([sys.executable, "-S", "-c", "import sys\ntext = sys.stdin.buffer.read()\nfor _ in range(int(sys.argv[1])):\n"
                               "    sys.stdout.buffer.write(text)\n", str(size // len(text))], stdin=subprocess.PIPE, stdout=subprocess.PIPE) as source:
            source.stdin.write(text)
            source.stdin.close()
            status, told, most = peak([program("kmc_cut"), "-k25", "-slices8", "-sp%d" % splitters, "--force", "part"], room, source.stdout)
        assert (status, told, source.returncode) == (0, "", 0), (status, told)
        assert most <= MOST_OF_CUT[splitters], (splitters, size, most)
        peaks.append(most)
    assert peaks[1] <= peaks[0] + DIFFERENCE, peaks
