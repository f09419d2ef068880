#!/usr/bin/env python3
"""What three forms of the count save that no contract can show: each is left out of a copy of the sources, which is proved and built, and both
programs run in turn on a text that has much of what the form is for. The dumps must be equal. Prints a Markdown table.

usage: bench/forms.py [build]

Wants `rt` and GNU time. ROUNDS (3) says how often each program runs; a row has the least wall time of either. The text, the workload `short` of
bench/compare.sh, lies in $TMPDIR or /tmp, and so do the programs without a form, kmc_without_SUM, each of which is built once for the
sources as they are: what stands below the form is used again, and what stands above it is built anew, some minutes for each. With the word
`build` nothing is measured, so that building and measuring may be done at different hours.
"""
import contextlib
import filecmp
import glob
import hashlib
import os
import shutil
import subprocess
import sys
import tempfile

TOP = os.path.dirname(os.path.dirname(os.path.abspath(__file__)))
ROUNDS = int(os.environ.get("ROUNDS", "3"))
TEXT = os.path.join(os.environ.get("TMPDIR", "/tmp"), "kmc_bench_short")

# what the form is, the file that has it, its line and what takes the line's place, options of the run
FORMS = [
    ("equal records counted once", "kmc_count/src/repeats.rt", "            return MOST_KEY_SYMBOLS;", "            return 0;", ["-k25", "-sp4", "-sr4"]),
    ("large bins shared by threads", "kmc_stage_two/src/giants.rt", "const LEAST_SHARED: usize = 1 << 20;", "const LEAST_SHARED: usize = 1 << 60;",
     ["-k25", "-n1", "-sp4", "-sr4"]),
    ("counters of short words", "kmc_count/src/adding.rt", "COUNTERS_OF_A_BYTE <= bytes", "COUNTERS_OF_A_BYTE <= bytes.min(0)", ["-k9", "-sp4", "-sr4"]),
]


def below(name, named):
    """The crates of the repository that a crate stands on, and itself."""
    return {name}.union(*(below(it, named) for it in named[name] if it in named))


def sum_of(path, line, other):
    """A sum of the sources that the program stands on, and of what is changed in them."""
    with open(os.path.join(TOP, "crates.txt"), encoding="utf-8") as listed:
        pairs = [it.partition("#")[0].partition(":") for it in listed]
    named = {name.strip(): names.split() for name, colon, names in pairs if colon}
    found = hashlib.sha256(repr((path, line, other)).encode())
    for crate in sorted(below("kmc", named)):
        for part in ("src", "specs", "proofs"):
            for name in sorted(glob.glob(os.path.join(TOP, "crates", crate, part, "**", "*.*"), recursive=True)):
                with open(name, "rb") as file:
                    found.update(repr((os.path.relpath(name, TOP), file.read())).encode())
    return found.hexdigest()[:16]


def without(path, line, other):
    """The program without the form, which is built of a copy of the sources where it is not there."""
    program = os.path.join(os.environ.get("TMPDIR", "/tmp"), "kmc_without_" + sum_of(path, line, other))
    if not os.path.exists(program):
        with tempfile.TemporaryDirectory(prefix="kmc-forms-") as folder:
            shutil.copy(built(folder, path, line, other), program + ".part")
        os.rename(program + ".part", program)
    return program


def built(folder, path, line, other):
    """Makes a copy of the sources without the form in a folder, and gives the program that is built of it."""
    for name in ("crates", "build"):
        shutil.copytree(os.path.join(TOP, name), os.path.join(folder, name), symlinks=True)
    shutil.copy(os.path.join(TOP, "crates.txt"), folder)
    path = os.path.join(folder, "crates", path)
    with open(path, encoding="utf-8") as file:
        text = file.read()
    if text.count(line) != 1:
        sys.exit("forms.py: %s does not have the line once: %s" % (path, line))
    with open(path, "w", encoding="utf-8") as file:
        file.write(text.replace(line, other))
    ran = subprocess.run(["build/program.py", "kmc"], cwd=folder, stdout=subprocess.PIPE, stderr=subprocess.STDOUT, text=True, check=False)
    if ran.returncode:
        sys.exit("forms.py: %s\n%s" % (path, ran.stdout))
    return os.path.join(folder, "crates", "kmc", "out", "kmc")


def timed(program, options, dump):
    """The wall and user seconds of a run, and the MB that it took."""
    with contextlib.suppress(FileNotFoundError):  # some file systems have who writes over a file wait for the disk when it is closed
        os.remove(dump)
    with open(TEXT, "rb") as reads, open(dump, "wb") as out:
        ran = subprocess.run(["/usr/bin/time", "-f", "%e %U %M", program, *options], stdin=reads, stdout=out, stderr=subprocess.PIPE, text=True, check=True)
    wall, user, kilobytes = ran.stderr.split()[-3:]
    return float(wall), float(user), int(kilobytes) // 1024


def main():
    if sys.argv[1:] == ["build"]:
        for _, *form, _ in FORMS:
            without(*form)
        return
    if not os.path.exists(TEXT):
        with open(TEXT + ".part", "wb") as out:
            subprocess.run([sys.executable, os.path.join(TOP, "bench", "simulate_reads.py"), "1500000", "100", "5000000", "1"], stdout=out, check=True)
        os.rename(TEXT + ".part", TEXT)
    print("| form | options | with it: wall s | user s | MB | without: wall s | user s | MB | wall, with / without |")
    print("|---|---|---|---|---|---|---|---|---|")
    for name, path, line, other, options in FORMS:
        with tempfile.TemporaryDirectory(prefix="kmc-forms-") as folder:
            programs = os.path.join(TOP, "kmc"), without(path, line, other)
            dumps = [os.path.join(folder, it) for it in ("with", "without")]
            found = [[], []]
            for _ in range(ROUNDS):
                for place in (0, 1):
                    found[place].append(timed(programs[place], options, dumps[place]))
            if not filecmp.cmp(*dumps, shallow=False):
                sys.exit("forms.py: the dumps differ without %s" % name)
            best = [min(it) for it in found]
            cells = ["%.2f | %.2f | %d" % it for it in best]
            print("| %s | `%s` | %s | %s | %.2f |" % (name, " ".join(options), *cells, best[0][0] / best[1][0]), flush=True)


main()
