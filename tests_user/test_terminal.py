"""What a terminal shows: progress, and only there."""
import os
import pty
import re
import select
import subprocess
import sys

from room import COMMAND, LONG, READS, SUMMARY, content, program, wanted_dump


# what kmc is to wait for at each of its steps, in the slow one below: that the terminal was shown this
STEPS = ("left", "counting", "writing: ")


def on_terminal(room, *words, stdin=subprocess.DEVNULL, stdout=subprocess.PIPE, steps=STEPS):
    """Runs the command with standard error on a terminal: its status, what it wrote and what the terminal was shown. Once that was shown
    one of the steps, a file of the step's number is made."""
    main, end = pty.openpty()
    given = end if stdin == "terminal" else stdin
    with subprocess.Popen([*COMMAND, *words], cwd=room.folder, env=room.environment, stdin=given, stdout=stdout, stderr=end) as child:
        os.close(end)
        shown, written, streams = b"", b"", [main] + ([child.stdout] if child.stdout else [])
        while streams:
            for it in select.select(streams, [], [])[0]:
                try:
                    block = os.read(it if it == main else it.fileno(), 1 << 16)
                except OSError:
                    block = b""
                if not block:
                    streams.remove(it)
                elif it == main:
                    shown += block
                    for number, step in enumerate(steps):
                        if step.encode() in shown:
                            room.write(str(number), b"")
                else:
                    written += block
    os.close(main)
    for number in range(len(steps)):
        if os.path.exists(room.path(str(number))):
            os.remove(room.path(str(number)))
    return child.returncode, written, shown.decode()


def slow(room):
    """A kmc that takes its time over reading, counting and writing: as long as it takes the terminal to show it."""
    room.stand_in("#!" + sys.executable + "\nimport os, sys, time\nend = time.monotonic() + %d\ndef shown(step):\n    while not os.path.exists(step):\n"
                  "        time.sleep(0.02)\n        if time.monotonic() > end:\n            sys.exit('the terminal is not shown ' + step)\n"
                  "os.read(0, 20000)\nshown('0')\nwhile os.read(0, 20000):\n    pass\nshown('1')\nos.write(1, b'ACGT\\t2\\n')\nshown('2')\n" % LONG)


def test_progress_is_shown_on_a_terminal(room):
    slow(room)
    room.write("reads", content(READS))
    status, written, shown = on_terminal(room, "count", "reads", "-o", "dump")
    assert (status, written) == (0, b""), shown
    for part in ("one run, estimated", "reading: ", " of 41.5 kB (", "left", "/s", "counting: all 41.5 kB read", "writing: ", "41.5 kB read, done in "):
        assert part in shown, "%s is not shown: %r" % (part, shown)


def test_each_step_of_slices_is_shown(room):
    for it in ("kmc_cut", "kmc_list", "kmc_merge"):
        program(it)
    status, written, shown = on_terminal(room, "count", "-k25", "--slices", "2", READS)
    assert (status, written) == (0, wanted_dump()), shown
    for part in ("2 slices; files in ", "cutting: ", "slice 1 of 2, ", "slice 2 of 2, ", "merging: ", "done in "):
        assert part in shown, "%s is not shown: %r" % (part, shown)
    status, _, shown = on_terminal(room, "count", "-k25", "--slices", "2", "--quiet", READS)
    assert (status, shown) == (0, ""), shown


def test_progress_of_packed_files_and_pipes(room):
    import gzip
    slow(room)
    room.write("a.gz", gzip.compress(content(READS)))
    status, _, shown = on_terminal(room, "count", "a.gz", READS, "-o", "dump", steps=("reading: ", "counting", "writing: "))
    assert status == 0 and "reading: " in shown and " of 45" in shown and "counting" in shown, shown
    with subprocess.Popen(["cat", READS], stdout=subprocess.PIPE) as cat:
        status, _, shown = on_terminal(room, "count", "-", "-o", "dump", stdin=cat.stdout, steps=("reading: ", "reading: ", "writing: "))
    assert status == 0 and "reading: " in shown and "%" not in shown, shown


def test_no_progress_elsewhere(room):
    # time enough to show it
    room.stand_in("#!/bin/sh\ncat > /dev/null; sleep 0.7; printf 'ACGT\\t2\\n'\n")
    for words in (["count", READS, "-o", "dump"], ["histogram", READS]):
        ran = room.run(*words)
        assert ran.status == 0 and re.fullmatch(SUMMARY, ran.err), ran
        status, _, shown = on_terminal(room, *words, "--quiet")
        assert (status, shown) == (0, ""), shown


def test_the_dump_is_the_same_on_a_terminal(room):
    status, written, shown = on_terminal(room, "count", "-k25", READS)
    assert (status, written) == (0, wanted_dump()) and "done in" in shown, shown


def test_a_fault_stands_on_a_line_of_its_own(room):
    room.write("bad", b"@r\nAC\n+\nI\n")
    status, _, shown = on_terminal(room, "count", "bad")
    assert status == 1 and shown.replace("\r\n", "\n").rpartition("\x1b[K")[2] == "futoncrane: bad: line 4: quality length differs\n", shown


def test_a_terminal_is_not_read_unasked(room):
    status, written, shown = on_terminal(room, "count", stdin="terminal")
    assert status == 2 and "no file is given" in shown, shown


def test_size_shows_its_peak_on_a_terminal(room):
    status, written, shown = on_terminal(room, "size", READS)
    assert status == 0 and b"size\t" in written and "<- peak" in shown and "<- valley" in shown, shown
