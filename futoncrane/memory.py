"""How much memory a run takes, and whether it fits: the figures are those of docs/kmc.1, MEMORY, which were measured."""
import collections
import contextlib
import math
import os

from futoncrane.faults import Fault

MEGA = 10**6
# of the records: bytes for each symbol, where a run of k-mers with one signature is short, where k is above 32, and else. k-mers of at most
# so many symbols are all of one bin, so of one slice, and their reads are packed whole
MOST_OF_ONE_BIN, MOST_OF_SHORT_RUNS, MOST_OF_A_NARROW_KMER = 10, 22, 32
BYTES_OF_A_PACKED_SYMBOL, BYTES_IN_SHORT_RUNS, BYTES_OF_A_SYMBOL, BYTES_IN_LONG_RUNS = 0.265, 1.1, 0.89, 0.75
# the rounds of one run: the least, what comes with each symbol, and the most, which grows with the records; and those of the cut to files of
# records: the least, what comes with each symbol, and the most
ROUNDS = (20 * MEGA, 0.3, 34 * MEGA, 40 * MEGA)
ROUNDS_OF_A_CUT = (20 * MEGA, 3, 150 * MEGA)
# the first bins are counted before any records are given back: with so many of the lists; and so much of the records is never given back
FIRST, KEPT = 0.25, 0.35
# a thread that counts takes so much for each symbol, or where the k-mers of a bin have a table, for each k-mer of so many letters that there
# can be; one that writes takes so much
BYTES_OF_A_COUNTED_SYMBOL = 1 / 60
BYTES_OF_A_COUNTER = 13
MOST_OF_A_TABLE, COUNTERS_OF_A_BYTE = 12, 8
BYTES_OF_A_WRITER = 10 * MEGA
# the usual bins and the most; they are of unequal size: the greatest ones are taken to be twice the mean. More slices than FEW_SLICES are
# made of the most, so that they are alike
BINS, MOST_BINS, GREATEST_BIN, FEW_SLICES = 512, 2000, 2, 64
# blocks of so many bytes are given back to the system
GIVEN_BACK = 1 << 16
# addresses are asked for that are not used: so many for each byte that is, and for each thread
ADDRESSES_OF_A_BYTE = 2
ADDRESSES_OF_A_THREAD = 10 * MEGA
# how many k-mers are listed for each symbol, of which this is a guess: with errors of reading, and without
LISTED_WITH_ERRORS = 0.5
LISTED_WITHOUT = 0.05
MOST_SLICES = 1000
# slices that are listed side by side at most: with four, processors rest no longer while one is read or written
MOST_AT_ONCE = 4
# slices are of unequal size, as signatures are of unequal frequency: where the mean is 1, the greatest is taken to be 1, and
# so much more for each time that the number of slices is doubled (as measured on sequences of which 41 in 100 letters are C or G)
UNEVEN = 0.25
# of the files of records: bytes of the disk for each symbol
DISK_OF_A_SYMBOL = 1.1

# how many slices there are, what one run would take, the bins, and how many slices side by side the number was chosen for
Plan = collections.namedtuple("Plan", "slices wanted bins at_once", defaults=[BINS, 1])


def listed_of(symbols, format_name, k, least):
    """A guess at how many k-mers are listed: never more than there are words, or places for them."""
    guess = symbols * (1.0 if format_name == "FASTA" else LISTED_WITH_ERRORS) if least <= 1 else symbols * LISTED_WITHOUT
    return int(min(guess, symbols / max(1, least), 4.0**k))


def bytes_of_a_line(k, cap):
    """The bytes that a listed k-mer takes."""
    return (17 if k > 32 else 10) + (7 if cap > 2**32 - 1 else 3 if cap > 255 else 0)


def records(symbols, k):
    """The bytes of memory that the records of so many symbols take."""
    if k <= MOST_OF_ONE_BIN:
        return BYTES_OF_A_PACKED_SYMBOL * symbols
    usual = BYTES_IN_SHORT_RUNS if k <= MOST_OF_SHORT_RUNS else BYTES_OF_A_SYMBOL if k <= MOST_OF_A_NARROW_KMER else BYTES_IN_LONG_RUNS
    return usual * symbols


def counting(symbols, k, threads, bins=BINS):
    """The bytes of memory that threads take which count the bins of so many symbols."""
    of_bin = records(symbols, k) / (1 if k <= MOST_OF_ONE_BIN else bins / GREATEST_BIN)
    if k <= MOST_OF_A_TABLE and 4**k <= COUNTERS_OF_A_BYTE * of_bin:
        return BYTES_OF_A_COUNTER * 4**k * threads
    return symbols * BINS / bins * BYTES_OF_A_COUNTED_SYMBOL * threads * (2 if k > MOST_OF_A_NARROW_KMER else 1)


def rounds(symbols, k):
    """The bytes of memory that reading takes beside the records."""
    least, more, most, with_records = ROUNDS
    return min(least + more * symbols, most + with_records * records(1, k))


def rounds_of_a_cut(symbols):
    """The bytes of memory that the cut to files of records takes."""
    least, more, most = ROUNDS_OF_A_CUT
    return min(least + more * symbols, most)


def listing(symbols, listed, k, cap, threads, share=1, bins=BINS):
    """The bytes of memory that the listing of a share of so many symbols takes: the greater of what it takes at its beginning and at its end."""
    kept, lines, counted = share * records(symbols, k), share * bytes_of_a_line(k, cap) * listed, counting(symbols, k, threads, bins)
    return max(kept + counted + FIRST * lines, KEPT * kept + counted + lines + BYTES_OF_A_WRITER * threads * (1 if listed else 0))


def wanted(symbols, listed, k, cap, threads):
    """The bytes of memory that one run takes: the greater of what it takes while it cuts, and while it lists."""
    return int(max(records(symbols, k) + rounds(symbols, k), listing(symbols, listed, k, cap, threads)))


def of_slices(slices, at_once, symbols, listed, k, cap, threads, bins=BINS):
    """The bytes of memory that so many slices take: the greater of what cutting all takes, and listing the greatest one, or several side by
    side that share the threads."""
    share = 1 if k <= MOST_OF_ONE_BIN else (1 + UNEVEN * math.log2(slices)) / slices
    return int(max(rounds_of_a_cut(symbols), at_once * listing(symbols, listed, k, cap, -(-threads // at_once), share, bins)))


def numbers_of_slices():
    """The numbers of slices that are tried, each with its numbers of bins."""
    for slices in [1 << it for it in range(1, MOST_SLICES.bit_length())] + [MOST_SLICES]:
        for bins in (BINS, MOST_BINS) if slices <= FEW_SLICES else (MOST_BINS,):
            yield slices, bins


def plan(symbols, listed, k, cap, threads, room, at_once=1):
    """One run where that fits the room, else the least power of two of slices that do, or the most, of the usual bins or, where these are too
    large, of the most; the slices are none where no number does. `at_once` of them are listed side by side, where at most twice as many
    slices make that fit."""
    whole = wanted(symbols, listed, k, cap, threads)
    if whole <= room:
        return Plan(1, whole)
    found = Plan(None, whole)
    for slices, bins in numbers_of_slices():
        if found.slices and slices > 2 * found.slices:
            break
        if of_slices(slices, at_once, symbols, listed, k, cap, threads, bins) <= room:
            return Plan(slices, whole, bins, at_once)
        if not found.slices and of_slices(slices, 1, symbols, listed, k, cap, threads, bins) <= room:
            found = Plan(slices, whole, bins)
    return found


def symbols_of(size, k):
    """How many symbols have records of so many bytes, about."""
    return int(size / records(1, k))


def at_once(sizes, symbols, listed, k, cap, threads, room, bins=BINS):
    """How many slices fit the room side by side, where their files have these sizes. They share the threads."""
    whole, sizes = max(1, sum(sizes)), sorted(sizes, reverse=True)
    for many in range(min(MOST_AT_ONCE, threads, len(sizes)), 1, -1):
        if sum(listing(symbols, listed, k, cap, -(-threads // many), it / whole, bins) for it in sizes[:many]) <= room:
            return many
    return 1


def disk(symbols):
    """The bytes that the records of slices take on the disk."""
    return int(DISK_OF_A_SYMBOL * symbols)


def disk_of_dumps(listed, k):
    """The bytes that the dumps of slices take on the disk, as far as it can be guessed how many k-mers are listed."""
    return (k + len("\t12\n")) * listed


def addresses(room, threads):
    """The greatest address space for a run that is to take so much room: two threads beside the splitters and counters."""
    return ADDRESSES_OF_A_BYTE * room + ADDRESSES_OF_A_THREAD * (2 * threads + 2)


def environment():
    """The environment of a program that counts. What it frees, from blocks of 64 KiB on, goes back to the system at once: the C library keeps
    it otherwise, which takes up to two thirds more memory and saves no time. What the user says of that stays."""
    return dict({"MALLOC_MMAP_THRESHOLD_": str(GIVEN_BACK)}, **os.environ)


def of_groups(lines, root="/sys/fs/cgroup"):
    """The least limit of memory of the control groups in which a process is, and of those around them; `lines` are its /proc/self/cgroup.
    None where there is no limit."""
    found = []
    for line in lines:
        number, controllers, path = line.rstrip("\n").split(":", 2)
        if number == "0":
            top, name = root, "memory.max"
        elif "memory" in controllers.split(","):
            top, name = os.path.join(root, "memory"), "memory.limit_in_bytes"
        else:
            continue
        folders = [it for it in path.split("/") if it]
        # where the path is that of the host, the container's own limit stands at the top
        for depth in range(len(folders) + 1):
            with contextlib.suppress(OSError, ValueError), open(os.path.join(top, *folders[:depth], name), encoding="ascii") as text:
                found.append(int(text.read()))
    return min(found, default=None)


def of_machine():
    """The bytes of memory that the machine has, or that its container or its job gives."""
    found = os.sysconf("SC_PAGE_SIZE") * os.sysconf("SC_PHYS_PAGES")
    with contextlib.suppress(OSError, ValueError), open("/proc/self/cgroup", encoding="utf-8") as lines:
        found = min(found, of_groups(lines) or found)
    return found


def human(count):
    """Bytes as people write them: 1.2 GB; 1 GB is 2^30 bytes."""
    for unit in ("bytes", "kB", "MB", "GB", "TB"):
        if count < 1000 or unit == "TB":
            return "%d bytes" % count if unit == "bytes" else "%.3g %s" % (count, unit)
        count /= 1024
    return ""


def refuse(found, room, is_asked):
    """The fault that a run is estimated not to fit, in however many slices."""
    cap = "--memory allows %s" % human(room) if is_asked else "the machine has %s" % human(room)
    raise Fault("this run is estimated to take %s of memory, and %s, which is too little for %d slices too: give a higher --memory or fewer "
                "--threads" % (human(found.wanted), cap, MOST_SLICES))
