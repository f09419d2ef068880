"""futoncrane cluster: counts on several machines, or in several processes of one, by way of dask.distributed."""
import contextlib
import importlib.util
import logging
import os
import subprocess
import sys
import time
import types

from futoncrane import doubts, folders, inputs, memory, merging, notes, parts, places, ranges, report, run, shared, workers
from futoncrane.children import Children
from futoncrane.faults import Fault, Misuse, shown
from futoncrane.database_output import output_of, words_of_run
from futoncrane.options import Option, decimal, number

USAGE = "(--workers N | --scheduler ADDRESS --directory DIR) [option ..] FILE .."
TEXT = """
Writes the dump of all the files together, as futoncrane count does, by the workers of a dask.distributed scheduler. Each must see the files
and the folder under the same paths, and have the programs kmc_cut and kmc_list: under the path that they have here, or in PATH as
futoncrane-kmc-cut and futoncrane-kmc-list.

The reads are cut in parts by the workers: a plain file is parted between records after each N million bytes, and a packed one or a BAM file
is one part. Then a worker lists a slice from the records of all parts, within the limits, and the slices' dumps are merged here. A worker
that dies is the scheduler's to replace, and another one does its work again: the dump is the same.

The status is 0 only where the dump is whole.
"""
OPTIONS = [
    Option(["--workers"], "workers", "N", number(1, 10000), text="starts N workers on this machine for this run"),
    Option(["--scheduler"], "scheduler", "ADDRESS", text="gives the work to the workers of this scheduler; where it has none, it waits a minute for one"),
    shared.k_option(31), *shared.LIMITS, shared.CAP, shared.BOTH, shared.STRANDS,
    Option(["--threads", "-t"], "threads", "N", number(1, shared.MOST_THREADS), 1, "threads of one worker, 1 to 16 (1)", glues=True),
    Option(["--memory", "-m"], "memory", "SIZE", shared.MEMORY.read, text="memory of one worker, as 8G (its machine's, shared by the workers there)", glues=True),
    Option(["--slices"], "slices", "N", shared.SLICES.read, text="slices, 1 to 1000 (as many as there are workers, and more where their memory wants it)"),
    Option(["--megabytes"], "megabytes", "N", decimal, text="text of a part, in millions of bytes (eight parts for each worker, of 64 million "
           "at least, and about 1000 at most)"),
    Option(["--directory"], "directory", "DIR", text="where files lie in the meantime, about 1.1 bytes for each symbol: all machines must see it "
           "(with --workers beside -o, else TMPDIR)"),
    shared.FILES, shared.JSON, shared.QUIET, shared.OUT_DUMP, *shared.OLD,
]
EXAMPLES = [
    "futoncrane cluster --workers 4 -k 31 --min 3 -o dump.txt lane_*.fastq",
    "futoncrane cluster --scheduler tcp://node1:8786 --directory /shared/work -k 31 --min 3 -t 16 -o dump.txt lane_*.fastq",
]
SYSTEM = "/usr/bin/python3"
# asked in a process of its own, since this one began without the packages of its Python
ASKED = "import importlib.util, sys; sys.exit(importlib.util.find_spec('distributed') is None)"
# what kmc_list takes
MOST_PARTS = 100000
# parts where none are told: so many for each worker, of so many bytes at least; and so many in all at most
PARTS_OF_A_WORKER, LEAST_PART, USUAL_PARTS = 8, 64 * 10**6, 1000
# seconds: for a first worker of a scheduler, and for a process of this machine to answer, which may have much to do
WAIT_FOR_WORKER, WAIT_FOR_ANSWER = 60, 600
# how often a folder is removed in which a program that was ended may still write
TRIES = 100


def interpreter():
    """The Python that has dask.distributed: this one, else the system's; none where neither has it."""
    for it in (sys.executable, SYSTEM):
        if os.access(it, os.X_OK) and subprocess.run([it, "-c", ASKED], stdin=subprocess.DEVNULL, stderr=subprocess.DEVNULL).returncode == 0:
            return it
    return None


def check(asked):
    """That the words say where the work is done."""
    if bool(asked.workers) == bool(asked.scheduler):
        raise Misuse("--workers N or --scheduler ADDRESS is wanted, and not both")
    if asked.scheduler and not asked.directory:
        raise Misuse("--scheduler wants a --directory that all machines see")
    if not asked.files:
        raise Misuse("no file is given")
    if "-" in asked.files:
        raise Misuse("standard input is not read: the reads of a cluster lie in files that all machines see")


def begin_anew():
    """Begins this command anew in a Python that has dask.distributed, with all its packages."""
    python = interpreter()
    if python is None:
        raise Fault("cluster wants dask.distributed, which neither %s nor %s has (Debian's package python3-distributed)" % (sys.executable, SYSTEM))
    os.execv(python, [python, *sys.argv])


def room_of_each(client):
    """How many workers there are, and the memory that the one with least has for itself."""
    from distributed import TimeoutError as NoneCame
    with contextlib.suppress(NoneCame):
        client.wait_for_workers(1, timeout=WAIT_FOR_WORKER)
    machines, rooms = client.run(workers.name_of_machine), client.run(memory.of_machine)
    if not machines:
        raise Fault("the scheduler has no worker: start dask-worker on the machines")
    names = list(machines.values())
    return len(names), min(rooms[it] // names.count(name) for it, name in machines.items() if it in rooms)


def settled(client, setting, found, format_name, megabytes):
    """The parts, the number of slices, and the bytes that the disk takes; the setting gets its number of bins."""
    count, room = room_of_each(client)
    room = setting.memory or room
    symbols, listed = shared.size_of(setting, found, format_name)
    part = max(1, int(megabytes * 10**6)) if megabytes else max(LEAST_PART, sum(it.bytes for it in found) // min(USUAL_PARTS, PARTS_OF_A_WORKER * count))
    made = list(parts.of_files(found, format_name == "FASTA", part))
    if len(made) > MOST_PARTS:
        raise Fault("there are %d parts, and %d are taken: give a greater --megabytes" % (len(made), MOST_PARTS))
    plan = memory.plan(symbols, listed, setting.k, shared.cap_of(setting), setting.threads, room)
    if plan.slices is None and not setting.slices:
        raise Fault("the memory of a worker, %s, is estimated to be too little for each number of slices: give a higher --memory" % memory.human(room))
    slices = setting.slices or min(memory.MOST_SLICES, max(plan.slices, count))
    slices = min(slices, setting.bins or memory.MOST_BINS)
    if not setting.bins and (slices > memory.FEW_SLICES or not setting.slices and plan.bins != memory.BINS):
        setting.bins = memory.MOST_BINS
    return made, slices, memory.disk(symbols) + memory.disk_of_dumps(listed, setting.k)


@contextlib.contextmanager
def client_of(asked, directory):
    """A client of the workers of this machine, which are started, or of the scheduler. What dask tells by itself is not shown."""
    if not os.environ.get("FUTONCRANE_DEBUG"):
        os.environ["DASK_DISTRIBUTED__LOGGING__DISTRIBUTED"] = "critical"
    import dask
    from distributed import Client, LocalCluster
    with contextlib.ExitStack() as stack:
        address = asked.scheduler
        if asked.workers:
            dask.config.set({"distributed.comm.timeouts.connect": WAIT_FOR_ANSWER})
            address = stack.enter_context(LocalCluster(n_workers=asked.workers, threads_per_worker=1, memory_limit=0, dashboard_address=":0",
                                                       local_directory=directory, silence_logs=logging.CRITICAL))
        try:
            yield stack.enter_context(Client(address))
        except TimeoutError:
            raise Fault("%s: no scheduler answers there" % asked.scheduler) from None


def largest_first(cut):
    """The slices, that of the most bytes of records first, so that no worker lists a large one alone at the end; `cut` has their bytes by part."""
    sizes = [sum(it) for it in zip(*cut)]
    return sorted(range(len(sizes)), key=lambda it: -sizes[it])


def listed_dumps(client, made, slices, setting, format_name, directory):
    """Has the workers cut and list, and gives the paths of the slices' dumps."""
    from distributed import KilledWorker
    for name in ["work", "cut", "dump", *("slice-%d" % it for it in range(slices))]:
        os.mkdir(os.path.join(directory, name))
    cutter, lister = places.find("kmc_cut"), places.find("kmc_list")
    cutting, listing = shared.words_of_cut(setting, format_name), shared.words_of_list(setting)
    try:
        cut = client.gather([client.submit(workers.cut_part, it, part, cutter, cutting, slices, directory, pure=False) for it, part in enumerate(made)])
        setting.report.step("kmc_cut")
        client.gather([client.submit(workers.list_slice, it, len(made), lister, listing, directory, pure=False) for it in largest_first(cut)])
        setting.report.step("kmc_list")
    except KilledWorker:
        raise Fault("some work was given up after several workers died over it: they may have had too little memory: give more --slices") from None
    except RuntimeError as fault:
        raise Fault(" ".join(str(fault).split())) from None
    return [os.path.join(directory, "dump", str(it)) for it in range(slices)]


def merge(dumps, asked, setting, directory, output, children):
    """Merges the slices' dumps here, by as many programs as the workers of this machine had threads."""
    here = types.SimpleNamespace(**{**vars(setting), "threads": min(shared.processors(), setting.threads * (asked.workers or 1))})
    if not ranges.merged(dumps, merging.WHOLE, children, here, output):
        merging.merge(dumps, merging.WHOLE, children, here, lambda: os.path.join(directory, "work"), output)


def count(client, asked, setting, found, directory, output, children):
    """Counts with the workers of a client."""
    format_name = inputs.format_of_all(found, setting.format)
    setting.most = inputs.most_count(found, format_name)
    made, slices, disk = settled(client, setting, found, format_name, asked.megabytes)
    place = os.path.dirname(directory)
    folders.check_room(place, disk)
    report.say("%d parts, %d slices; files in %s take about %s" % (len(made), slices, shown(place), memory.human(disk)), setting.quiet)
    dumps = listed_dumps(client, made, slices, setting, format_name, directory) if made else []
    if dumps:
        merge(dumps, asked, setting, directory, output, children)
    else:
        setting.report.written = 0
    setting.report.doubt = doubts.of(found, setting)


def main(asked):
    check(asked)
    if importlib.util.find_spec("distributed") is None:
        begin_anew()
    import cloudpickle
    for it in (workers, memory):
        cloudpickle.register_pickle_by_value(it)  # so the workers' machines need not have this package
    setting = shared.settings(asked)
    with Children() as children, output_of(asked, setting, children, words_of_run(setting)) as output:
        found = run.open_inputs(asked.files, asked.out)
        if any(it.is_stream for it in found):
            raise Fault("%s: it is a pipe or a device, and no file that all machines see" % next(it.shown for it in found if it.is_stream))
        directory = folders.made(os.path.abspath(folders.place_for(asked.directory, asked.out)))
        try:
            with client_of(asked, directory) as client:
                count(client, asked, setting, found, directory, output, children)
        finally:
            removed(directory)
        setting.report.bytes_read = sum(it.bytes for it in found)
        notes.finish(output, notes.of_run(setting, asked.files), setting.report, setting.quiet)
    run.tell("cluster", setting, asked, asked.files)
    return 0


def removed(directory):
    """Removes the folder, also where a program that was ended still writes there."""
    for _ in range(TRIES):
        folders.dropped(directory)
        if not os.path.exists(directory):
            return
        time.sleep(0.1)
