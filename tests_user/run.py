#!/usr/bin/env python3
"""The tests of users: futoncrane as people call it, on examples/reads.fastq and on reads of Debian's packages.

usage: make tests-user, or tests_user/run.py [WORD ..]      (WORD: tests with this word in their name, or of this file)

The programs kmc, kmc_cut, kmc_list, kmc_merge and kmc_db are those at the top, or in the folder FUTONCRANE_BIN. A test is a function
test_NAME(room) in a file test_FILE.py, which unittest runs. One whose tools are not installed is skipped, and says what is missing. The last
line is 'N passed, M failed, K skipped', and the status is 1 where a test failed.
"""
import collections
import importlib
import multiprocessing
import os
import shutil
import signal
import sys
import tempfile
import time
import unittest
from concurrent.futures import ProcessPoolExecutor

sys.dont_write_bytecode = True
HERE = os.path.dirname(os.path.abspath(__file__))
sys.path[:0] = [HERE, os.path.dirname(HERE)]

import room  # noqa: E402

AT_ONCE = 2
# what a test may send to the command; whoever starts the tests may have had them ignored, as nohup does
SIGNALS = (signal.SIGINT, signal.SIGTERM, signal.SIGHUP, signal.SIGQUIT)


class UserTest(unittest.TestCase):
    """A test in a folder of its own, where it must leave no temporary file."""

    def __init__(self, function, base):
        super().__init__()
        self.function, self.base = function, base

    def runTest(self):
        os.environ["FUTONCRANE_BIN"] = room.BIN  # the test before may have named stand-ins
        here = room.Room(self.base)
        self.addCleanup(here.gone)
        self.function(here)
        self.assertEqual(os.listdir(here.temporary), [], "temporary files are left")


def heed_signals():
    """Has the signals do to this process, and to what it starts, what they do to one that a terminal starts."""
    for it in SIGNALS:
        if signal.getsignal(it) == signal.SIG_IGN:
            signal.signal(it, signal.default_int_handler if it == signal.SIGINT else signal.SIG_DFL)
    signal.pthread_sigmask(signal.SIG_SETMASK, ())


def tests(wanted):
    """Pairs of a module's name and the name of a test in it."""
    for module in sorted(it[:-len(".py")] for it in os.listdir(HERE) if it.startswith("test_") and it.endswith(".py")):
        for key, it in vars(importlib.import_module(module)).items():
            is_own = key.startswith("test_") and callable(it) and it.__module__ == module
            if is_own and (not wanted or any(word in key or "test_" + word == module for word in wanted)):
                yield module, key


def attempt(module, name, base):
    """Runs one test: 'passed', 'FAILED' or 'skipped', its name, what there is to say, and the seconds that it took."""
    begun, result = time.monotonic(), unittest.TestResult()
    UserTest(getattr(importlib.import_module(module), name), base).run(result)
    faults = [text for _, text in result.errors + result.failures]
    skips = [why for _, why in result.skipped]
    how = "FAILED" if faults else "skipped" if skips else "passed"
    return how, name[len("test_"):], "\n".join(faults or skips), time.monotonic() - begun


def main(wanted):
    heed_signals()
    numbers, found = collections.Counter(), list(tests(wanted))
    base = tempfile.mkdtemp(prefix="tests-user-")
    try:
        # processes, and not threads: a child of one test never has the files and pipes of another one, be it for a moment
        with ProcessPoolExecutor(AT_ONCE, multiprocessing.get_context("fork")) as pool:
            for how, name, text, seconds in pool.map(attempt, [it for it, _ in found], [it for _, it in found], [base] * len(found)):
                numbers[how] += 1
                print("%-8s %s%s%s" % (how, name, ": " + text.replace("\n", "\n         ").rstrip() if text else "",
                                       " (%.0f s)" % seconds if seconds > 10 else ""), flush=True)
    finally:
        shutil.rmtree(base, ignore_errors=True)
    print("%d passed, %d failed, %d skipped" % (numbers["passed"], numbers["FAILED"], numbers["skipped"]))
    return 1 if numbers["FAILED"] else 0


if __name__ == "__main__":
    sys.exit(main(sys.argv[1:]))
