#!/usr/bin/env python3
"""Runs a command and tells its wall and processor time, the peak of all its processes together, and of the greatest one.

usage: peak.py COMMAND [WORD..]      (standard input and output are the command's; the figures go to standard error)

The first peak is the greatest sum of the processes' resident memory in Linux's /proc, looked at some fifty times a second: a
shorter peak is missed, and what processes share counts for each. The second is what the system kept, and exact.
"""
import os
import resource
import subprocess
import sys
import time


def parents():
    """The parent of each process."""
    found = {}
    for name in os.listdir("/proc"):
        if name.isdigit():
            try:
                with open("/proc/%s/stat" % name) as file:
                    found[int(name)] = int(file.read().rpartition(")")[2].split()[1])
            except (OSError, IndexError):
                pass  # it has ended
    return found


def family(root):
    """The process and all that descend from it."""
    of = parents()
    members = {root}
    grown = True
    while grown:
        more = {child for child, parent in of.items() if parent in members} - members
        members |= more
        grown = bool(more)
    return members


def resident(process):
    """The process's resident memory, in bytes."""
    try:
        with open("/proc/%d/statm" % process) as file:
            return int(file.read().split()[1]) * resource.getpagesize()
    except OSError:
        return 0


def main():
    start = time.monotonic()
    command = subprocess.Popen(sys.argv[1:])
    peak = looks = 0
    while command.poll() is None:
        if looks % 5 == 0:
            members = family(command.pid)
        looks += 1
        peak = max(peak, sum(resident(process) for process in members))
        time.sleep(0.02)
    wall = time.monotonic() - start
    used = resource.getrusage(resource.RUSAGE_CHILDREN)
    print("wall %.1f s, processor %.1f s, peak %.0f MB, of one process %.0f MB" % (
        wall, used.ru_utime + used.ru_stime, peak / 1e6, used.ru_maxrss * 1024 / 1e6), file=sys.stderr)
    sys.exit(command.returncode)


main()
