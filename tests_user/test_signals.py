"""Signals: they end the command and all its children, and nothing is left."""
import gzip
import os
import random
import re
import signal
import subprocess
import sys
import threading
import time

from room import LONG, READS, SUMMARY, TOP, alive, content, descendants, program, wait_for, wait_until

MOMENTS = 20


def started(room, words, **others):
    """The command, at work."""
    return subprocess.Popen([*room.command, *words], cwd=room.folder, env=room.environment, stdin=subprocess.DEVNULL, stdout=subprocess.DEVNULL,
                            stderr=subprocess.PIPE, **others)


def interrupted(child, number):
    """Sends the command a signal: its status, what it told, and which of its children still run."""
    family = descendants(child.pid)
    child.send_signal(number)
    told = child.communicate(timeout=LONG)[1].decode()
    return child.returncode, told, alive(family)


def seconds_of(room, words):
    begun = time.monotonic()
    ran = room.run(*words)
    assert ran.status == 0, ran
    return time.monotonic() - begun


def test_control_c_at_twenty_moments(room):
    room.write("plain", content(READS) * 60)
    room.write("packed.gz", gzip.compress(content(READS) * 60, 1))
    room.write("bin.txt", b"")
    source = random.Random(7)
    kinds = (["count", "packed.gz", "plain", "packed.gz", "-o", "dump.gz"], ["count", "plain", "-o", "dump"], ["histogram", "packed.gz", "-o", "dump"])
    times = [seconds_of(room, words) for words in kinds]
    for name in ("dump", "dump.json", "dump.gz", "dump.gz.json"):
        if os.path.exists(room.path(name)):
            os.remove(room.path(name))
    before = room.files()
    for number in range(MOMENTS):
        which = number % len(kinds)
        child = started(room, kinds[which], start_new_session=True)
        time.sleep(source.uniform(0.1, 1.0) * times[which])
        status, told, left = interrupted(child, signal.SIGINT)
        assert left == set(), "%s still run" % left
        # before Python has come to the command, a signal ends it as it ends Python; and it may be done before
        assert status in (0, 130, -signal.SIGINT), status
        assert re.fullmatch(SUMMARY, told) if status == 0 else told == "" or status == -signal.SIGINT and told.endswith("KeyboardInterrupt\n"), told
        if status == 0:
            for name in ("dump", "dump.json", "dump.gz", "dump.gz.json"):
                if os.path.exists(room.path(name)):
                    os.remove(room.path(name))
        assert room.files() == before, (status, room.files() - before)


# a value that is let go when the signal comes: what is raised there Python passes over
PASSED_OVER = """
import signal
import sys
import time
from futoncrane.children import catch_signals
from futoncrane.faults import Ended


class LetGo:
    def __del__(self):
        signal.raise_signal(signal.SIGINT)
        time.sleep(0.001)


catch_signals()
try:
    LetGo()
    time.sleep(10)
except Ended as fault:
    sys.exit(128 + fault.number)
"""


def test_a_signal_that_python_passes_over_comes_again(room):
    ran = subprocess.run([sys.executable, "-c", PASSED_OVER], cwd=TOP, env=room.environment, stderr=subprocess.PIPE, timeout=LONG, check=False)
    assert (ran.returncode, ran.stderr) == (130, b"")


def test_control_c_while_reads_still_come(room):
    for it in ("kmc_cut", "kmc_list", "kmc_merge"):
        program(it)
    room.write("packed.gz", gzip.compress(content(READS), 1))
    os.mkfifo(room.path("pipe"))
    kinds = (["count", "packed.gz", "pipe", "-o", "dump.gz"], ["count", "pipe", "-o", "dump"], ["histogram", "pipe", "-o", "dump"],
             ["count", "-q", "--slices", "2", "pipe", "-o", "dump"])
    before, source = room.files(), random.Random(8)
    for number in range(3 * len(kinds)):
        text = (content(READS) * 40)[:source.randrange(1, 40 * len(content(READS)))]
        given = threading.Event()

        def give():
            with open(room.path("pipe"), "wb", buffering=0) as pipe:
                for place in range(0, len(text), 1 << 16):
                    pipe.write(text[place:place + (1 << 16)])
                given.set()
                ended.wait()
        ended = threading.Event()
        writer = threading.Thread(target=give, daemon=True)
        writer.start()
        child = started(room, kinds[number % len(kinds)])
        wait_until(lambda: given.is_set() or child.poll() is not None, "the reader")
        status, told, left = interrupted(child, signal.SIGINT)
        ended.set()
        writer.join()
        assert (status, told, left) == (130, "", set()), (status, told, left)
        assert room.files() == before, room.files() - before


def hanging(room):
    """A kmc that writes some of the dump and then hangs, and a kmc_db that does so where it counts reads."""
    text = "#!/bin/sh\nprintf 'ACGT\\t2\\n'; : > begun; exec sleep 10000\n"
    room.stand_in(text)
    room.stand_in(text.replace("\n", "\ncase \"$1\" in spectrum|count) ;; *) exec '%s' \"$@\";; esac\n" % program("kmc_db"), 1), "kmc_db")


def test_each_signal_has_its_status(room):
    hanging(room)
    room.write("reads.gz", gzip.compress(content(READS)))
    for number in (signal.SIGINT, signal.SIGTERM, signal.SIGHUP):
        for words in (["count", READS, "-o", "dump"], ["count", "reads.gz", "-o", "dump.gz"], ["count", READS, "-o", "db.kmc"], ["histogram", READS]):
            child = started(room, words)
            wait_for(room, "begun")
            assert descendants(child.pid)
            found = interrupted(child, number)
            assert found == (128 + number, "", set()), (words, found)
            os.remove(room.path("begun"))
            assert sorted(os.listdir(room.folder)) == ["bin", "reads.gz", "tmp"], os.listdir(room.folder)


def test_children_end_with_a_command_that_is_killed(room):
    hanging(room)
    child = started(room, ["count", READS, "-o", "dump"])
    wait_for(room, "begun")
    family = descendants(child.pid)
    child.kill()
    child.communicate(timeout=LONG)
    assert family
    wait_until(lambda: not alive(family), "the children's end")
    assert not os.path.exists(room.path("dump"))


def test_a_signal_that_is_ignored_stays_so(room):
    room.stand_in("#!/bin/sh\n: > begun; until [ -e sent ]; do sleep 0.02; done; cat > /dev/null; printf 'ACGT\\t2\\n'\n")
    for number in (signal.SIGHUP, signal.SIGINT):
        child = started(room, ["count", READS, "-o", "dump"], preexec_fn=lambda number=number: signal.signal(number, signal.SIG_IGN))
        wait_for(room, "begun")
        child.send_signal(number)
        room.write("sent", b"")
        assert re.fullmatch(SUMMARY, child.communicate(timeout=LONG)[1].decode()) and child.returncode == 0
        assert content(room.path("dump")) == b"ACGT\t2\n"
        for name in ("begun", "sent", "dump", "dump.json"):
            os.remove(room.path(name))
