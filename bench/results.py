#!/usr/bin/env python3
"""Runs the scripts that measure, and writes what they print: bench/RESULTS.md, and the figures in README.md, docs/KMC3.md and docs/DESIGN.md.

usage: make results    (or bench/results.py [SECTION ..], to measure some sections and keep the others)

The sections are those of the list below, in order. Programs run in turn, but nothing else should run beside them: the machine's load at the
beginning and at the end of each section is written down. All of it takes some sixty minutes; the variable ROUNDS (3) says how often the
comparisons with KMC 3 run each program, THREADS (1 4) with how many threads. Wants what the scripts want.
"""
import os
import re
import subprocess
import sys
import time

TOP = os.path.dirname(os.path.dirname(os.path.abspath(__file__)))
RESULTS = os.path.join(TOP, "bench", "RESULTS.md")
ROUNDS = os.environ.get("ROUNDS", "3")  # how often the comparisons with KMC 3 run each program
THREADS = os.environ.get("THREADS", "1 4")  # the numbers of threads
LARGE = os.environ.get("LARGE", "plant fly").split()  # the large texts, or a fifth of each: LARGE="plant_fifth fly_fifth"

# variables of the scripts that are told with their figures, where they are set
TOLD = ("SHORT_READS", "LONG_READS", "CUT_TIMES", "SLICES", "K", "KMC_GB", "FOLDER", "ROUNDS")

HEAD = """# Results

Written by `make results` (bench/results.py). Each section tells when and on which machine it was measured: compare within one alone. MB are 2^20 bytes
where KMC 3 stands beside, else a million.

"""

# name, heading, command, whether the last line alone is kept
SECTIONS = [
    ("size", "At the size that users have, k 31", ["bench/compare.sh", "-r", ROUNDS, "-k", "31", "-t", "4", *LARGE], False),
    ("kmc3", "Time and memory beside KMC 3, k 25", ["bench/compare.sh", "-r", ROUNDS, "-t", THREADS], False),
    ("k", "Other lengths of words, short reads", ["bench/compare.sh", "-r", ROUNDS, "-k", "1 2 3 4 5 6 7 8 9 10 11 12 31 55", "-t", "4", "short"], False),
    ("deep", "Short words, 88-fold", ["bench/compare.sh", "-r", ROUNDS, "-k", "1 2 3 4 5 6 7 8 9 10 11 12", "-t", "4", "deep"], False),
    ("busy", "Short reads beside four busy processes, k 25, two threads", ["bench/busy.sh", "-r", ROUNDS, "-t", "2"], False),
    ("skew", "Skewed inputs", ["bench/compare.sh", "-k", "25 55", "-t", "4", "-r", ROUNDS, "alla", "repeat", "prefix", "one_bin"], False),
    ("memory", "Memory", ["bench/memory.sh"], False),
    ("forms", "What three forms of the count save", ["bench/forms.py"], False),
    ("reading", "Reading and feeding alone", ["bench/reading.sh"], False),
    ("feeding", "What futoncrane takes beside the program", ["bench/feeding.sh"], False),
    ("slices", "Slices: what does not fit one memory", ["bench/slices.sh"], False),
    ("room", "Slices within a memory of 1 GB, k 31", ["env", "ROOM=1G", "K=31", "KMC_GB=6", "bench/slices.sh", LARGE[0]], False),
    ("merge", "Merging two dumps of 5.6 million lines", ["bench/merge_time.sh"], True),
    ("joins", "Joining two dumps beside kmc_tools simple", ["bench/joins.sh"], False),
    ("fuzz", "Hostile texts and options (make fuzz)", ["bench/fuzz.py", "--seed", "7"], True),
    ("hostile", "Refused memory (make hostile)", ["bench/hostile.py"], True),
    ("damaged", "Damaged bodies (make damaged)", ["bench/damaged.py", "--seed", "5"], True),
    ("devices", "Devices (make devices)", ["bench/devices.py"], True),
    ("limits", "Limits of the system (make limits)", ["bench/system_limits.sh"], True),
    ("threads", "Load (make threads)", ["bench/hostile_threads.sh"], True),
    ("merges", "Merges of random parts (make merges)", ["bench/merge.py", "--seed", "3"], True),
]


def run(words):
    """What a command prints, with its last line where it fails."""
    done = subprocess.run(words, cwd=TOP, stdout=subprocess.PIPE, stderr=subprocess.STDOUT, text=True, stdin=subprocess.DEVNULL, check=False)
    lines = done.stdout.rstrip().splitlines() or [""]
    if done.returncode:
        lines.append("(%s ended with status %d)" % (words[0], done.returncode))
    return lines


def load():
    with open("/proc/loadavg") as file:
        return file.read().split()[0]


def machine():
    """The processor, how many, and how much memory."""
    with open("/proc/cpuinfo") as file:
        model = re.search(r"model name\s*: (.*)", file.read())
    with open("/proc/meminfo") as file:
        memory = int(re.search(r"MemTotal:\s*(\d+)", file.read()).group(1)) / 2**20
    return "%s, %d processors, %.0f GiB" % (model.group(1) if model else "processor unknown", os.cpu_count(), memory)


def version():
    """The version, and whether the sources have changes since."""
    with open(os.path.join(TOP, "VERSION")) as number, open(os.path.join(TOP, "CHANGELOG.md")) as changes:
        return number.read().strip() + (" and later" if "Unreleased" in changes.readline() else "")


def section(name, heading, words, last):
    """The text of one section."""
    before, start = load(), time.time()
    given = ["%s='%s'" % (each, os.environ[each]) for each in TOLD if name in ("slices", "room") and each in os.environ]
    lines = run(words)
    body = lines[-1:] if last else lines
    told = "%s, version %s, on %s, %s; load %s before and %s after; %d s" % (
        time.strftime("%Y-%m-%d"), version(), machine(), "`%s`" % " ".join([*given, *("'%s'" % word if " " in word else word for word in words)]), before, load(), time.time() - start)
    return "<!-- %s: begin -->\n## %s\n\n%s\n\n%s\n<!-- %s: end -->\n" % (name, heading, told, "\n".join(body), name)


def kept():
    """The sections that stand in the file, by name."""
    if not os.path.exists(RESULTS):
        return {}
    with open(RESULTS) as file:
        text = file.read()
    return {found.group(1): found.group(0) for found in re.finditer(r"<!-- (\w+): begin -->\n.*?<!-- \1: end -->\n", text, re.S)}


def put(path, name, lines):
    """Puts lines between the marks of this name."""
    with open(path) as file:
        text = file.read()
    new = re.sub(r"(<!-- %s: begin -->\n).*?(<!-- %s: end -->)" % (name, name), lambda found: found.group(1) + "\n".join(lines) + "\n" + found.group(2), text, flags=re.S)
    with open(path, "w") as file:
        file.write(new)


def rows_of(sections, name):
    return [line for line in sections.get(name, "").splitlines() if line.startswith("|")]


def told_of(sections, name):
    """When and with which version a section was measured."""
    found = re.search(r"^(\d{4}-\d\d-\d\d, version [\d.]+( and later)?)", sections.get(name, ""), re.M)
    return found.group(1) if found else "not measured"


def machine_of(sections, name):
    """The machine that a section was measured on."""
    found = re.search(r"^\d{4}-\d\d-\d\d, version .*?, on (.*?), `", sections.get(name, ""), re.M)
    return found.group(1) if found else "a machine that is not told"


def of_four_threads(sections, name="kmc3"):
    """The cells of the rows of a comparison with KMC 3 that have four threads."""
    rows = [[cell.strip() for cell in row.strip("|").split("|")] for row in rows_of(sections, name)[2:]]
    return [cells for cells in rows if cells[2] == "4"]


# the rows of README's table, with what each text is
HEADLINE = {
    "plant": "24 million reads of 150 bases, 7.5 GB",
    "plant_fifth": "4.8 million reads of 150 bases, 1.5 GB",
    "fly": "240,000 reads of 15,000 bases, 7.2 GB",
    "fly_fifth": "48,000 reads of 15,000 bases, 1.4 GB",
    "short": "1.5 million reads of 100 bases, 0.3 GB",
    "genome": "a genome of 100 million bases, each k-mer listed",
}


def in_room(sections):
    """The row of the slices within a memory, beside KMC 3 on its files."""
    rows = [[cell.strip() for cell in row.strip("|").split("|")] for row in rows_of(sections, "room")]
    ours, theirs = (next((cells for cells in rows if cells[1] == name), None) for name in ("futoncrane", "kmc3"))
    if not ours:
        return []
    time_of_it, memory_of_it = (float(ours[cell]) / float(theirs[cell]) for cell in (2, 4))
    return ["| the first in slices, `--memory 1G`; KMC 3 with files and 6 GB | 31 | %s | %s | %.2f | %.2f |" % (ours[2], theirs[2], time_of_it, memory_of_it)]


def headline(sections):
    """README's table: how much of KMC 3's time and memory is taken, on large and small reads and a genome."""
    rows = [cells for name in ("size", "kmc3") for cells in of_four_threads(sections, name) if cells[0] in HEADLINE]
    lines = ["| four threads | k | seconds | KMC 3 | time, of KMC 3's | memory, of KMC 3's |", "|---|---|---|---|---|---|"]
    lines += ["| %s | %s | %s | %s | %s | %s |" % (HEADLINE[cells[0]], cells[1], cells[3], cells[6], cells[10], cells[11]) for cells in rows]
    lines += in_room(sections)
    dates = sorted({told_of(sections, name) for name in ("size", "kmc3") if name in sections})
    return [*lines, "", "KMC 3.2.1 in the faster of its two modes but where one is named, with its sorted dump; the dumps are equal byte for byte.",
            "Measured %s:" % "; ".join(dates), "[bench/RESULTS.md](bench/RESULTS.md), [docs/KMC3.md](docs/KMC3.md)."]


def table(sections):
    """The table of docs/KMC3.md: short, deep, hifi, long reads and the genome with four threads."""
    lines = ["| four threads, k 25 | ours: wall s | user s | MB | KMC 3: wall s | user s | MB | wall, ours / KMC 3 | memory |", "|---|---|---|---|---|---|---|---|---|"]
    lines += ["| " + " | ".join([cells[0]] + cells[3:9] + cells[10:]) + " |" for cells in of_four_threads(sections)]
    lines.append("")
    lines.append("KMC 3.2.1 in the faster of its two modes (in memory, with files), its sorted dump included; dumps equal byte for byte. Short reads: 1.5 million")
    lines.append("of 100, 30-fold; deep: 88-fold; hifi: 10,000 of 15,000, 2 errors in 1000; long: 5 in 100; genome: 100 million symbols, `-ci1`. Measured")
    lines.append("%s (`make results`), on %s." % (told_of(sections, "kmc3"), machine_of(sections, "kmc3")))
    return lines


def main():
    wanted = sys.argv[1:] or [name for name, _, _, _ in SECTIONS]
    sections = kept()
    for name, heading, words, last in SECTIONS:
        if name in wanted:
            print("results: %s" % heading, flush=True)
            sections[name] = section(name, heading, words, last)
            with open(RESULTS, "w") as file:
                file.write(HEAD + "\n".join(sections[each] for each, _, _, _ in SECTIONS if each in sections))
    put(os.path.join(TOP, "README.md"), "headline", headline(sections))
    put(os.path.join(TOP, "docs", "KMC3.md"), "table", table(sections))
    put(os.path.join(TOP, "docs", "DESIGN.md"), "figures", ["%s, on %s." % (told_of(sections, "kmc3"), machine_of(sections, "kmc3")), ""] + rows_of(sections, "kmc3"))


if __name__ == "__main__":
    main()
