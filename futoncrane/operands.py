"""Limits of the two dumps that are joined: a k-mer outside them is as if its dump did not list it."""
from futoncrane import notes
from futoncrane.options import MOST, Option, number


def of_dump(which, letter):
    """The limits of one of the dumps; kmc_db has this letter for it."""
    text = "k-mers that occur %s often in the " + which + " dump are as if it did not list them (%s)"
    least = Option(["--%s-min" % which], which + "_least", "COUNT", number(0, MOST), text=text % ("less", "1"), hidden=["-%sci" % letter])
    most = number(0, MOST, MOST)
    greatest = Option(["--%s-max" % which], which + "_greatest", "COUNT", most, text=text % ("more", "none: no limit"), hidden=["-%scx" % letter])
    return [least, greatest]


OPTIONS = [*of_dump("first", "l"), *of_dump("second", "r")]


def words_of(asked):
    """The limits that are given, as kmc_db is told them."""
    given = vars(asked)
    return ["%s%d" % (it.hidden[0], given[it.key]) for it in OPTIONS if given[it.key] is not None]


def limited(noted, first, asked):
    """The notes of the dumps as of those within their limits; one of these that a cut off count cannot be judged by is refused."""
    given, found = vars(asked), []
    for name, note in noted:
        which = "first" if name == first else "second"
        least, greatest = given[which + "_least"] or 0, given[which + "_greatest"]
        greatest = MOST if greatest is None else greatest
        notes.check_cap(name, note, least, greatest)
        found.append((name, {**note, "min": max(note["min"], least), "max": notes.least_of([note["max"], notes.none_of(greatest)])}))
    return found
