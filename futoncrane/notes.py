"""The note beside a dump, DUMP.json: what the dump was made with. What cannot be summed or compared is refused by it."""
import contextlib
import json
import os
import struct

from futoncrane import databases, places
from futoncrane.faults import Fault, shown
from futoncrane.options import MOST
from futoncrane.report import say, write_json

FORM = "dump of k-mers"
JOINED, APART = "joined", "apart"
STRANDS = {JOINED: "strands joined", APART: "--forward"}
# the first bytes of a file of slices: docs/DEFINITIONS.md
MAGIC, HEADER = b"KMCSLICE", "<8sIBBHHH"
NAMES_TOLD = 2
KEYS = {"k", "strands", "min", "max", "cap", "inputs", "slices", "bytes"}


def path_of(dump):
    """The note of a dump; that of a database stands beside its files as NAME.kmc.json, whichever of its names is given."""
    stem = databases.stem_of(dump)
    return (dump if stem is None else stem + databases.NAME) + ".json"


def bytes_of(dump):
    """How many bytes a dump has, or the suffix file of a database: a note is of no other one."""
    stem = databases.stem_of(dump)
    return os.stat(dump if stem is None else databases.files_of(stem)[1]).st_size


def of_run(setting, inputs, slice_of=None):
    """The note of a dump that is made with these settings."""
    return {"futoncrane": places.version(), "form": FORM, "k": setting.k, "strands": APART if setting.forward else JOINED, "min": setting.least,
            "max": none_of(setting.greatest), "cap": none_of(setting.cap), "inputs": inputs, "slices": slice_of}


def none_of(limit):
    """A limit as a note has it: none where it bounds nothing."""
    return None if limit >= MOST else limit


def of_header(path):
    """k, and what a file of slices says of its slice; none where it is packed, or no such file."""
    try:
        with open(path, "rb") as file:
            magic, _, k, _, _, slices, number = struct.unpack(HEADER, file.read(struct.calcsize(HEADER)))
    except (OSError, struct.error):
        return None
    return (k, slices, number) if magic == MAGIC else None


def read(dump):
    """The note of a dump; none where there is none, or where it tells of another dump."""
    for path in dict.fromkeys((path_of(dump), path_of(os.path.realpath(dump)))):
        with contextlib.suppress(OSError, ValueError, AttributeError):
            with open(path, encoding="utf-8") as text:
                note = json.load(text)
            if note.get("form") == FORM and KEYS <= note.keys() and note["bytes"] == bytes_of(dump):
                return note
    return None


def is_ours(path):
    """Whether a file may be written over: it is none, or a note."""
    if not os.path.lexists(path):
        return True
    with contextlib.suppress(OSError, ValueError, AttributeError), open(path, encoding="utf-8") as text:
        return json.load(text).get("form") == FORM
    return False


def finish(output, note, report, quiet):
    """Gives the dump its name, with its note beside it, and tells what there is to tell. An older note is gone before; where nothing is
    known there is none."""
    path = path_of(output.name) if output.is_made else None
    if path and is_ours(path):
        with contextlib.suppress(OSError):
            os.unlink(path)
    output.finish(is_counted=report.is_told or path is not None)
    report.totals["listed"] = output.lines()
    if note and note["min"] <= 1 and note["max"] is None and not note["slices"]:
        report.totals["distinct"] = report.totals["listed"]
    if path and note:
        write(path, {**report.record(**note), "bytes": bytes_of(output.name)}, quiet)


def write(path, note, quiet):
    """Writes a note. The dump is there already, so what is wrong with its note is only told."""
    if not is_ours(path):
        say("%s is no note of a dump and stays as it is: nothing tells what the dump was made with" % shown(path), quiet)
        return
    try:
        write_json(path, note)
    except Fault as fault:
        say("%s: nothing tells what the dump was made with" % fault, quiet)


def limits_of(note):
    """The limits of a dump, as words."""
    return "--min %d --max %s --cap %s" % (note["min"], *("none" if note[it] is None else note[it] for it in ("max", "cap")))


def is_whole(note):
    """Whether each k-mer of the reads is listed, with its true count."""
    return note["min"] <= 1 and note["max"] is None and note["cap"] is None


def of_dumps(names, doing, quiet):
    """Pairs of a name and its note, for those that have one. Those that have none are told in one line; what is unlike is refused."""
    found = [(name, read(name) if name != "-" else None) for name in names]
    alike = known(found)
    bare = [shown(name) for name, note in found if note is None]
    if bare:
        more = " and %d more" % (len(bare) - NAMES_TOLD) if len(bare) > NAMES_TOLD else ""
        say("%s%s: no note (DUMP.json) tells what was counted there, so it is not checked that they can be %s" % (
            ", ".join(bare[:NAMES_TOLD]), more, doing), quiet)
    check_alike(alike, doing)
    return [it for it in found if it[1] is not None]


def known(found):
    """Pairs of a name and what is known of its k and its strands, by its note, or of a database by its header; but for names of which nothing is."""
    told = [(name, note or of_database(name)) for name, note in found]
    return [it for it in told if it[1] is not None]


def of_database(name):
    """What the header of a database tells as a note does, though not what a cap cut off; none of a dump."""
    stem = databases.stem_of(name)
    if stem is None:
        return None
    header = databases.header_of(stem)
    return {"k": header.k, "strands": APART if header.is_forward else JOINED}


def check_alike(noted, doing):
    """That all of which something is known have one k, and strands of one kind."""
    for key, told in (("k", lambda k: "-k %d" % k), ("strands", STRANDS.get)):
        for name, note in noted[1:]:
            first, other = noted[0]
            if note[key] != other[key]:
                raise Fault("%s was counted with %s, and %s with %s: they cannot be %s" % (
                    shown(first), told(other[key]), shown(name), told(note[key]), doing))


def check_pair(noted, quiet):
    """Refuses dumps of unlike slices, and tells of unlike limits: then a k-mer may be in one alone since it is left out of the other."""
    if len(noted) < 2:
        return
    (first, one), (second, other) = noted
    if one["slices"] != other["slices"]:
        raise Fault("%s and %s are not of the same slices: they cannot be compared" % (shown(first), shown(second)))
    if limits_of(one) != limits_of(other):
        say("%s was counted with %s, and %s with %s: k-mers that one leaves out count as not in it" % (
            shown(first), limits_of(one), shown(second), limits_of(other)), quiet)


def check_sum(noted, number, least, greatest):
    """That these dumps, of so many, can be summed, or joined, within the limits."""
    slices = [(name, note) for name, note in noted if note["slices"]]
    is_join = len(slices) == len(noted) and len({note["slices"]["of"] for _, note in slices}) == 1 and no_slice_twice(slices)
    for name, note in noted:
        if not is_whole(note) and not is_join and number > 1:
            raise Fault("%s was counted with %s, so k-mers that it leaves out would be missing in the sum: count it again with "
                        "--min 1 --max none --cap none" % (shown(name), limits_of(note)))
        check_cap(name, note, least, greatest)
    if is_join:
        check_parts(slices)


def no_slice_twice(slices):
    numbers = [it for _, note in slices for it in note["slices"]["numbers"]]
    return len(numbers) == len(set(numbers))


def check_cap(name, note, least, greatest):
    """That the limits of a merge can be judged by counts which are cut off."""
    cap, most = note["cap"], MOST if note["max"] is None else note["max"]
    if cap is not None and cap < most and (cap < least or cap <= greatest < most):
        raise Fault("%s shows no count above %d, so it does not tell which k-mers are within --min %d --max %s: count it again with --cap none" % (
            shown(name), cap, least, "none" if greatest >= MOST else greatest))


def check_parts(slices):
    """That the slices are listed from the files of equally many parts, within the same limits."""
    first, other = slices[0]
    for name, note in slices[1:]:
        for told in (lambda it: "from %d files of parts" % it["slices"]["parts"], lambda it: "with " + limits_of(it)):
            if told(note) != told(other):
                raise Fault("%s was listed %s, and %s %s: they are no slices of one dump" % (shown(first), told(other), shown(name), told(note)))


def of_sum(noted, names, asked, quiet):
    """The note of a merge, where all its dumps have one; slices that are missing are told. Limits of the dumps hold for the merge too."""
    if len(noted) != len(names):
        return None
    found = [note for _, note in noted]
    inputs = list(dict.fromkeys(it for note in found for it in note["inputs"]))
    return {"futoncrane": places.version(), "form": FORM, "k": found[0]["k"], "strands": found[0]["strands"],
            "min": max([asked.least] + [note["min"] for note in found]), "max": least_of([none_of(asked.greatest)] + [note["max"] for note in found]),
            "cap": least_of([none_of(asked.cap)] + [note["cap"] for note in found]), "inputs": inputs, "slices": joined(noted, quiet)}


def least_of(limits):
    return min((it for it in limits if it is not None), default=None)


def joined(noted, quiet):
    """What slices there are of a join; none where they are all there."""
    slices = [note["slices"] for _, note in noted]
    if not all(slices):
        return None
    numbers = sorted({it for one in slices for it in one["numbers"]})
    missing = [str(it) for it in range(slices[0]["of"]) if it not in numbers]
    if not missing:
        return None
    say("of %d slices these are missing: %s; the dump lacks their k-mers" % (slices[0]["of"], ", ".join(missing[:10]) + (" .." if missing[10:] else "")), quiet)
    return {"of": slices[0]["of"], "numbers": numbers, "parts": sum(one["parts"] for one in slices if numbers[0] in one["numbers"])}
