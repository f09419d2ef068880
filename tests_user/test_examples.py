"""README's lines and the examples for Slurm, Snakemake and Nextflow, as they stand."""
import os
import re
import shutil
import subprocess

from room import READS, TOP, content, need, plainly, program, wanted_dump


def shell_lines(text):
    """Pairs of a line behind '$' and the lines right below it, which it writes."""
    found, is_below = [], False
    for line in text.splitlines():
        if line.startswith("    $ "):
            found.append((line[len("    $ "):], []))
        elif line.startswith("    ") and is_below:
            found[-1][1].append(line[len("    "):])
        is_below = line.startswith("    ")
    return found


def test_the_lines_of_readme_run(room):
    for it in ("kmc_merge", "kmc_cut", "kmc_list", "kmc_db"):
        program(it)
    os.symlink(os.path.join(TOP, "examples"), room.path("examples"))
    environment = dict(room.environment, PATH=os.path.join(TOP, "futoncrane") + ":" + os.environ["PATH"])
    lines = shell_lines(content(os.path.join(TOP, "README.md")).decode().partition("Five things")[0])
    assert len(lines) >= 8 and lines[0][0].startswith("tar xf ") and lines[1][0].startswith("export PATH="), lines
    for line, wanted in lines[2:]:
        ran = subprocess.run(["bash", "-euc", line], cwd=room.folder, env=environment, stdout=subprocess.PIPE, stderr=subprocess.PIPE)
        assert ran.returncode == 0, (line, ran)
        if wanted:
            assert ran.stdout.decode().splitlines() == wanted, (line, ran)


def test_readme_is_short_and_its_links_are_there(room):
    for name in ("README.md", "docs/KMC3.md", "docs/CLUSTER.md"):
        text = content(os.path.join(TOP, name)).decode()
        for link in re.findall(r"\]\(([^)#:]+)(?:#[^)]*)?\)", text):
            assert os.path.exists(os.path.join(TOP, os.path.dirname(name), link)), (name, link)
    text = content(os.path.join(TOP, "README.md")).decode()
    assert text.count("\n") <= 120 and "recipes/" not in text


# what sbatch does, in turn: it runs a job's script for each number of its array, once the jobs that it waits for went well
SBATCH = """#!/bin/sh
set -u
dependency='' array=''
for word; do
    case $word in
        --dependency=afterok:*) dependency=${word#*:} ;;
        --array=*) array=${word#*=} ;;
        --*) ;;
        *) script=$word ;;
    esac
done
cp "$script" "$SPOOL/script"
number=$(($(cat "$SPOOL/last" 2> /dev/null || echo 0) + 1))
echo "$number" > "$SPOOL/last"
echo "$number"
if [ -n "$dependency" ] && [ ! -e "$SPOOL/done.$dependency" ]; then exit 0; fi
task=${array%-*}
while [ "${task:-0}" -le "${array#*-}" ] 2> /dev/null || [ -z "$array" ]; do
    SLURM_ARRAY_TASK_ID=$task sh "$SPOOL/script" >> "$SPOOL/log" 2>&1 || exit 0
    [ -n "$array" ] || break
    task=$((task + 1))
done
touch "$SPOOL/done.$number"
"""


def slurm(room, *words, **variables):
    """Runs the recipe for Slurm under a stand-in for sbatch."""
    for it in ("kmc_merge", "kmc_cut", "kmc_list"):
        program(it)
    os.makedirs(room.path("path"), exist_ok=True)
    room.write("path/sbatch", SBATCH)
    os.chmod(room.path("path/sbatch"), 0o755)
    shutil.rmtree(room.path("spool"), ignore_errors=True)
    os.mkdir(room.path("spool"))
    environment = dict(room.environment, PATH="%s:%s:%s" % (room.path("path"), os.path.join(TOP, "futoncrane"), os.environ["PATH"]), SPOOL=room.path("spool"), **variables)
    return subprocess.run([os.path.join(TOP, "examples", "slurm", "count.sh"), *words], cwd=room.folder, env=environment, stdout=subprocess.PIPE,
                          stderr=subprocess.PIPE)


def test_slurm_counts_in_slices(room):
    lines = content(READS).splitlines(keepends=True)
    room.write("lane 1.fastq", b"".join(lines[:400]))
    room.write("lane 2.fastq", b"".join(lines[400:]))
    ran = slurm(room, "work", "whole.dump", "lane 1.fastq", "lane 2.fastq", K="25", SLICES="3", THREADS="1", MEMORY="1G")
    log = content(room.path("spool/log")).decode()
    assert ran.returncode == 0 and b"jobs 1, 2 and 3 are submitted" in ran.stdout and ran.stderr == b"", (ran, log)
    assert content(room.path("whole.dump")) == wanted_dump(), log
    assert not os.path.exists(room.path("work"))
    ran = slurm(room, "work", "whole.dump", "lane 1.fastq", K="31", MIN="4", CAP="7", SLICES="2")
    assert ran.returncode == 0 and content(room.path("whole.dump")) == plainly(content(room.path("lane 1.fastq")), 31, 4, cap=7), ran


def test_slurm_makes_no_dump_of_what_failed(room):
    room.write("bad.fastq", b"@r\nACGT\n+\nII\n")
    ran = slurm(room, "work", "whole.dump", READS, "bad.fastq", SLICES="2")
    log = content(room.path("spool/log")).decode()
    assert ran.returncode == 0 and "bad.fastq: line 4: quality length differs" in log and not os.path.exists(room.path("whole.dump")), (ran, log)
    ran = slurm(room, "other", "whole.dump", "missing.fastq")
    assert ran.returncode == 1 and b"missing.fastq cannot be read" in ran.stderr and not os.path.exists(room.path("other")), ran
    ran = slurm(room)
    assert ran.returncode == 2 and ran.stderr.startswith(b"usage: "), ran


def test_snakemake_counts_samples(room):
    need("snakemake")
    import gzip
    os.mkdir(room.path("reads"))
    room.write("reads/one.fastq.gz", gzip.compress(content(READS)))
    file = os.path.join(TOP, "examples", "snakemake", "Snakefile")
    environment = dict(room.environment, PATH=os.path.join(TOP, "futoncrane") + ":" + os.environ["PATH"], HOME=room.folder)
    for words in (["--lint"], ["--cores", "1", "--config", "k=25"]):
        ran = subprocess.run(["snakemake", "-s", file, *words], cwd=room.folder, env=environment, stdout=subprocess.PIPE, stderr=subprocess.PIPE)
        assert ran.returncode == 0, ran
    assert gzip.decompress(content(room.path("dumps/one.dump.gz"))) == wanted_dump() and os.path.exists(room.path("dumps/one.dump.gz.json"))
    assert content(room.path("histograms/one.histo")).count(b"\n") == 10000
