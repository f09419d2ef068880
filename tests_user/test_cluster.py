"""futoncrane cluster: its words, and its dumps by workers of this machine and of a scheduler, one of which may die."""
import contextlib
import gzip
import json
import os
import re
import signal
import subprocess
import sys
import tempfile
import time

from room import COMMAND, LONG, MOST, READS, TOP, Skipped, content, plainly, program, wanted_dump

PYTHONS = (sys.executable, "/usr/bin/python3")
# the least parts of the greatest run, and behind how many starts one of kmc_cut takes its time
PARTS, SLOW = 1000, 300


def need_dask(room):
    """Skips the test where no Python has dask.distributed; else gives the one that has it. A connection may take its time."""
    for it in ("kmc_cut", "kmc_list", "kmc_merge"):
        program(it)
    room.environment["DASK_DISTRIBUTED__COMM__TIMEOUTS__CONNECT"] = "600s"
    for it in PYTHONS:
        if os.access(it, os.X_OK) and subprocess.run([it, "-c", "import distributed"], stderr=subprocess.DEVNULL).returncode == 0:
            return it
    raise Skipped("dask.distributed is not installed (Debian's package python3-distributed)")


def test_words_of_a_cluster(room):
    for words, part in ((["a"], "--workers N or --scheduler"), (["--workers", "1", "--scheduler", "tcp://a:1", "a"], "and not both"),
                        (["--scheduler", "tcp://a:1", "a"], "wants a --directory"), (["--workers", "1"], "no file is given"),
                        (["--workers", "1", "-k", "99", "a"], "-k is out of range: 99; it takes 1 to 64"), (["--workers", "0", "a"], "--workers is out of range"),
                        (["--workers", "1", "-"], "standard input is not read"), (["--workers", "1", "-okff", "a"], "no option -okff")):
        room.refuses(2, part, words=["cluster", *words])


def test_a_cluster_gives_the_dump_of_one_run(room):
    need_dask(room)
    for slices in ("1", "2", "7"):
        room.counts(wanted_dump(), "cluster", "--workers", "4", "--megabytes", "0.005", "--slices", slices, "-k", "25", "--quiet", READS)
    ran = room.run("cluster", "--workers", "2", "--memory", "1G", "-k25", "-o", "dump.gz", READS)
    assert ran.status == 0 and ran.err.startswith("futoncrane: 1 parts, 2 slices; files in %s take about " % room.folder) and ran.err.count("\n") == 2, ran
    assert gzip.decompress(content(room.path("dump.gz"))) == wanted_dump()
    note = json.loads(content(room.path("dump.gz.json")))
    assert (note["k"], note["min"], note["cap"], note["inputs"], note["steps"]) == (25, 2, 255, [READS], ["kmc_cut", "kmc_list", "kmc_merge"]), note


def test_a_cluster_counts_into_a_database(room):
    need_dask(room)
    for it in ("kmc", "kmc_db"):
        program(it)
    room.counts(b"", "count", "-q", "-k25", "-o", "one.kmc", READS)
    room.counts(b"", "cluster", "--workers", "2", "--slices", "3", "-k25", "--quiet", "-o", "many.kmc", READS)
    for it in (".kmc_pre", ".kmc_suf"):
        assert content(room.path("many" + it)) == content(room.path("one" + it)), it


def test_a_cluster_judges_the_sums_of_many_parts(room):
    need_dask(room)
    room.write("packed.gz", gzip.compress(content(READS)))
    wanted = plainly(content(READS) * 3, 31, 20, 40, 35)
    assert wanted
    room.counts(wanted, "cluster", "--workers", "2", "--megabytes", "0.02", "--slices", "3", "--quiet", "--min", "20", "--max", "40", "--cap", "35",
                READS, "packed.gz", READS)
    lines = content(READS).splitlines()
    room.write("reads.fa", b"".join(b">%d\n%b\n%b\n" % (it, read[:60], read[60:]) for it, read in enumerate(lines[1::4])))
    ran = room.run("cluster", "--workers", "2", "--megabytes", "0.003", "-k25", "--min", "1", "--cap", "none", "reads.fa")
    assert ran.status == 0 and ran.out == plainly(content(READS), 25, 1, cap=MOST), ran
    assert int(ran.err.split()[1]) > 5 and " parts, " in ran.err, ran


def slow_programs(room):
    """A folder of the programs, where kmc_cut notes its starts; one behind so many takes its time, and tells its worker."""
    for it in ("kmc_list", "kmc_merge"):
        os.makedirs(room.path("bin"), exist_ok=True)
        os.symlink(program(it), room.path("bin/" + it))
    room.stand_in("#!/bin/sh\ncd '%s' || exit 1\necho $PPID >> starts\nif [ $(wc -l < starts) -ge %d ] && mkdir held 2> /dev/null; then\n"
                  "    echo $PPID $$ > slow.new && mv slow.new slow\n    exec sleep 10000\nfi\nexec '%s' \"$@\"\n" % (room.folder, SLOW, program("kmc_cut")), "kmc_cut")


def test_1000_parts_are_counted_though_a_worker_dies(room):
    need_dask(room)
    slow_programs(room)
    text = subprocess.run([sys.executable, os.path.join(TOP, "bench", "simulate_reads.py"), "2000", "40", "5000", "1"], stdout=subprocess.PIPE, check=True).stdout
    room.write("small.fastq", text)
    with subprocess.Popen([*COMMAND, "cluster", "--workers", "4", "--megabytes", "0.00018", "--slices", "3", "-k21", "small.fastq", "-o", "dump"], cwd=room.folder,
                          env=room.environment, stdin=subprocess.DEVNULL, stderr=subprocess.PIPE) as child:
        end = time.monotonic() + 3 * LONG
        while child.poll() is None and not os.path.exists(room.path("slow")):
            assert time.monotonic() < end, "no part takes its time"
            time.sleep(0.1)
        for it in content(room.path("slow")).split():
            os.kill(int(it), signal.SIGKILL)
        told = child.communicate(timeout=3 * LONG)[1].decode()
    assert child.returncode == 0 and content(room.path("dump")) == plainly(text, 21), told
    parts = int(re.match(r"futoncrane: ([0-9]+) parts, 3 slices; files in ", told)[1])
    assert parts >= PARTS, told
    # a start for each part, and once more what died
    assert content(room.path("starts")).count(b"\n") > parts


def test_faults_of_a_cluster_are_one_line(room):
    need_dask(room)
    room.write("cut.fastq", b"".join(content(READS).splitlines(keepends=True)[:777]))
    room.write("broken.gz", gzip.compress(content(READS))[:2000])
    room.refuses(1, "cut.fastq, lines counted from byte 0 on: line 778: record cut short", words=["cluster", "--quiet", "--workers", "1", READS, "cut.fastq", "-o", "out"])
    room.refuses(1, "cut.fastq, lines counted from byte ", "record cut short", words=["cluster", "--quiet", "--megabytes", "0.01", "--workers", "1", "cut.fastq", "-o", "out"])
    room.refuses(1, "broken.gz", "it ends early, is damaged", words=["cluster", "--quiet", "--workers", "1", READS, "broken.gz", "-o", "out"])
    room.refuses(1, "missing: No such file", words=["cluster", "--workers", "1", "missing"])
    room.stand_in("#!/bin/sh\nkill -KILL $$\n", "kmc_list")
    for it in ("kmc_cut", "kmc_merge"):
        os.symlink(program(it), room.path("bin/" + it))
    room.refuses(1, "slice 0: kmc_list was ended by signal 9", words=["cluster", "--quiet", "--workers", "1", READS, "-o", "out"])


@contextlib.contextmanager
def scheduler(room, python):
    """A scheduler with two workers: its address."""
    quiet = {"cwd": room.folder, "stdout": subprocess.DEVNULL, "stderr": subprocess.DEVNULL, "env": room.environment}
    name = "distributed.cli.dask_%s"
    running = [subprocess.Popen([python, "-m", name % "scheduler", "--host", "127.0.0.1", "--port", "0", "--no-dashboard", "--scheduler-file", "where.json"], **quiet)]
    folder = tempfile.mkdtemp(dir=room.folder)
    running += [subprocess.Popen([python, "-m", name % "worker", "--scheduler-file", "where.json", "--nthreads", "1", "--no-dashboard", "--local-directory", folder,
                                  "--death-timeout", "600"], **quiet) for _ in range(2)]
    try:
        asked = ("from distributed import Client\nclient = Client(scheduler_file='where.json', timeout=600)\nclient.wait_for_workers(2, timeout=600)\n"
                 "print(client.scheduler_info()['address'])")
        ran = subprocess.run([python, "-c", asked], cwd=room.folder, env=room.environment, stdout=subprocess.PIPE, stderr=subprocess.PIPE, timeout=2 * LONG, check=True)
        yield ran.stdout.decode().strip()
    finally:
        for it in reversed(running):
            it.terminate()
            it.wait()


def test_a_cluster_works_for_a_scheduler(room):
    python = need_dask(room)
    os.mkdir(room.path("shared"))
    with scheduler(room, python) as address:
        room.counts(wanted_dump(), "cluster", "--scheduler", address, "--directory", "shared", "--quiet", "--megabytes", "0.01", "-k25", READS)
    assert os.listdir(room.path("shared")) == []


def test_a_cluster_finds_installed_names(room):
    need_dask(room)
    os.mkdir(room.path("installed"))
    for it in ("kmc_cut", "kmc_list", "kmc_merge"):
        os.symlink(program(it), room.path("installed/futoncrane-" + it.replace("_", "-")))
    room.environment["FUTONCRANE_BIN"] = room.path("installed")
    room.counts(plainly(content(READS), 31, 2, 10**9, 9), "cluster", "--workers", "1", "--quiet", "--megabytes", "0.02", "--cap", "9", READS)


def test_a_cluster_without_dask_is_told(room):
    # a Python that has nothing but its own library, as the one that begins and as the system's
    script = ("import sys; sys.path.insert(0, %r)\nfrom futoncrane import main\nimport futoncrane.commands.cluster as cluster\n"
              "cluster.interpreter = lambda: None\nsys.exit(main.main(['cluster', '--workers', '1', 'a'], '.'))\n" % TOP)
    ran = subprocess.run([sys.executable, "-S", "-c", script], stderr=subprocess.PIPE)
    assert ran.returncode == 1 and b"cluster wants dask.distributed" in ran.stderr and ran.stderr.count(b"\n") == 1, ran
