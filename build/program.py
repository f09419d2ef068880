#!/usr/bin/env python3
"""Proves what programs of crates.txt stand on, several libraries at a time, and proves and builds the programs.

usage: build/program.py PROGRAM.., at the top of the repository. Each program is left as crates/PROGRAM/out/PROGRAM.

Each library is proved from nothing, and what stands above it reads its statements, as with `rt ci`. A crate is begun once those that it
names are done; of several the one behind which the longest chain of lines waits. It gets one process, since several take up to twice
the processor seconds, and two where processors are free. What was built before from the same files is kept.
"""
import fcntl
import functools
import hashlib
import os
import shutil
import subprocess
import sys
import tempfile
import time
from concurrent.futures import FIRST_COMPLETED, ThreadPoolExecutor, wait

# the memory that a check takes at most, and the room in memory in which the copies of one check hand on what they checked
MEMORY_OF_A_CHECK, ROOM_TO_HAND_ON = 4 << 30, 2 << 30


@functools.cache
def below(name):
    """The libraries of the repository that a crate stands on."""
    named = {it for it in CRATES[name] if it in CRATES}
    return named.union(*map(below, named))


def files_of(name):
    """The files that a crate is made from, each with its bytes."""
    for part in ("src", "specs", "proofs"):
        for folder, folders, files in os.walk(f"crates/{name}/{part}"):
            folders.sort()
            for it in sorted(files):
                with open(f"{folder}/{it}", "rb") as file:
                    yield f"{folder}/{it}", file.read()


@functools.cache
def chain(name):
    """How many lines a crate has, with the longest chain of crates above it."""
    lines = sum(text.count(b"\n") for _, text in files_of(name))
    return lines + max((chain(it) for it in ORDER if name in CRATES[it]), default=0)


@functools.cache
def sum_of(name):
    """A sum of all that a crate is built from: the kit, its files, and what the libraries that it names are built from."""
    with open(f"{KIT}/KIT-ID", "rb") as kit:
        found = hashlib.sha256(kit.read())
    for it in files_of(name):
        found.update(repr(it).encode())
    for it in CRATES[name]:
        found.update((sum_of(it) if it in CRATES else it).encode())
    return found.hexdigest()


def words(name):
    """How the compiler is called for a crate, but for the number of its processes."""
    above = os.path.abspath("crates")
    found = ["--extern", f"std={KIT}/rlibs/std.rlib"]
    for it in CRATES[name]:
        found += ["--extern", f"{it}={f'{above}/{it}/out/rlib' if it in CRATES else f'{KIT}/rlibs'}/{it}.rlib"]
    for place in [f"{KIT}/rlibs", *[f"{above}/{it}/out/rlib" for it in sorted(below(name))]]:
        found += ["-L", f"dependency={place}"]
    return [*found, "--antt-project", f"{KIT}/rattle/logic/antt-project.json", "--logic-built", f"{KIT}/logic_built", "--links", f"{name}="]


def call(name, *command):
    """Runs a command in the crate's folder; its allocator keeps what is freed. What it prints is shown where it fails."""
    environment = {"MIMALLOC_PURGE_DELAY": "-1", "TMPDIR": HANDED_ON, **os.environ}
    how = {"stdin": subprocess.DEVNULL, "stdout": subprocess.PIPE, "stderr": subprocess.STDOUT, "errors": "replace"}
    ran = subprocess.run(command, cwd=f"crates/{name}", env=environment, **how)
    if ran.returncode:
        sys.exit(f"{ran.stdout}build: {name} is not built")


def build(name, jobs):
    """Proves and builds a crate, unless it is there."""
    began, is_program = time.time(), os.path.isfile(f"crates/{name}/src/main.rt")
    made = f"out/{name}" if is_program else f"out/rlib/{name}.rlib"
    mark = f"crates/{name}/out/rlib/{name}.built-from-{sum_of(name)}"
    if os.path.isfile(mark) and os.path.exists(f"crates/{name}/{made}"):  # a library is a folder
        return
    shutil.rmtree(os.path.dirname(mark), ignore_errors=True)
    os.makedirs(os.path.dirname(mark))
    command = [f"{KIT}/bin/rattle", "build", "--crate-name", name, f"src/{'main' if is_program else 'lib'}.rt", *words(name), "--jobs", str(jobs)]
    if is_program:
        tools, of_system = ["--toolchain", f"{KIT}/toolchain"], [f"{KIT}/c/libos_c.a", f"{KIT}/c/liblibc_c.a"]
        call(name, *command, *tools, "--backend", "llvm", "-o", f"{made}.o")
        call(name, f"{KIT}/bin/rattle-link", "--target", "x86_64-unknown-linux-gnu", *tools, "-o", made, f"{made}.o", *of_system)
    else:
        call(name, *command, "--statements", "-o", made)
    open(mark, "w", encoding="ascii").close()
    print(f"build: {name}, {time.time() - began:.0f} s", flush=True)


def build_all():
    """Builds the crates side by side, each after those that it names."""
    with open("/proc/meminfo", encoding="ascii") as lines:
        room = next(int(it.split()[1]) << 10 for it in lines if it.startswith("MemAvailable:"))
    at_once = max(1, min(len(os.sched_getaffinity(0)), room // MEMORY_OF_A_CHECK))
    left, running, done = sorted(ORDER, key=chain, reverse=True), {}, set()
    with ThreadPoolExecutor(at_once) as pool:
        while left or running:
            ready = [it for it in left if done >= {other for other in CRATES[it] if other in CRATES}][: at_once - len(running)]
            for name in ready:
                left.remove(name)
                running[pool.submit(build, name, 2 if len(running) + len(ready) <= at_once // 2 else 1)] = name
            for it in wait(running, return_when=FIRST_COMPLETED).done:
                it.result()
                done.add(running.pop(it))


if __name__ == "__main__":
    with open("crates.txt", encoding="utf-8") as listed:
        pairs = [line.partition("#")[0].partition(":") for line in listed]
    CRATES, PROGRAMS = {name.strip(): names.split() for name, colon, names in pairs if colon}, sys.argv[1:]
    if not PROGRAMS or not set(PROGRAMS) <= set(CRATES):
        sys.exit("usage: build/program.py PROGRAM..")
    ORDER = set(PROGRAMS).union(*map(below, PROGRAMS))
    KIT = os.path.dirname(subprocess.run(["rt", "doc"], stdout=subprocess.PIPE, text=True, check=True).stdout.strip())
    for crate in sorted(ORDER):  # no other build, and no `rt`, works in these folders meanwhile
        fcntl.flock(os.open(f"crates/{crate}", os.O_RDONLY), fcntl.LOCK_EX)
    has_room = os.access("/dev/shm", os.W_OK) and shutil.disk_usage("/dev/shm").free >= ROOM_TO_HAND_ON
    with tempfile.TemporaryDirectory(prefix="kmc-build-", dir="/dev/shm" if has_room else None) as HANDED_ON:
        build_all()
