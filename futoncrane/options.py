"""The words of a command: its options, their values and ranges, and the help that tells them."""
import difflib
import os
import re
import textwrap
import types

from futoncrane.faults import Fault, Misuse, reason, shown

MOST = 1 << 63
# a size without a unit that is meant in GB, as KMC's -m is
FEW_GB = 4096
UNITS = {"": 1, "K": 1 << 10, "M": 1 << 20, "G": 1 << 30, "T": 1 << 40}


class Option:
    """One option: its names, the key that its value has, the value's word in the help (none for a flag), and how the value is read.

    A value is the next word, or stands behind '=' where the name has two '-'. KMC's own options take it glued too: those that `glues` says,
    and the hidden ones, which are KMC's spellings of others and are taken without being told of."""

    def __init__(self, names, key, value=None, read=None, default=None, text="", hidden=(), constant=True, glues=False):
        self.names, self.key, self.value, self.read = names, key, value, read or (lambda name, word: word)
        self.default, self.text, self.hidden, self.constant, self.glues = default, text, hidden, constant, glues

    def glued_names(self):
        """The names behind which a value may be glued."""
        return [it for it in [*(self.names if self.glues else []), *self.hidden] if not it.startswith("--")]

    def all_names(self):
        """The names that are told and those that are not."""
        return [*self.names, *self.hidden]


def number(least, most, none=None):
    """Reads a whole number of a range; where `none` is given, the word 'none' means it."""
    def read(name, word):
        if none is not None and word == "none":
            return none
        if not re.fullmatch("[0-9]{1,20}", word) or not least <= int(word) <= most:
            also = " or none" if none is not None else ""
            raise Misuse("value of %s is out of range: %s; it takes %d to %d%s" % (name, word or "''", least, most, also))
        return int(word)
    return read


def decimal(name, word):
    """Reads a number above 0, which may have a fraction."""
    if not re.fullmatch(r"[0-9]{1,9}(\.[0-9]{1,9})?", word) or float(word) == 0:
        raise Misuse("value of %s is out of range: %s; it takes a number above 0, as 64 or 0.5" % (name, word or "''"))
    return float(word)


def one_of(words):
    """Reads one of some words."""
    def read(name, word):
        if word not in words:
            raise Misuse("value of %s is out of range: %s; it takes %s" % (name, word or "''", ", ".join(words)))
        return word
    return read


def at_most(most):
    """Reads a whole number from 1 on. One above `most` is taken too: it is the caller's to tell of it."""
    def read(name, word):
        if not re.fullmatch("[0-9]{1,9}", word) or int(word) < 1:
            raise Misuse("value of %s is out of range: %s; it takes 1 to %d" % (name, word or "''", most))
        return int(word)
    return read


def file_of_names(name, path):
    """Reads a file that lists names, one a line, and gives them."""
    try:
        with open(path, "rb") as lines:
            found = [os.fsdecode(line.strip()) for line in lines]
    except OSError as fault:
        raise Fault("%s: %s" % (shown(path), reason(fault))) from None
    names = [it for it in found if it]
    if not names:
        raise Fault("%s: it names no file" % shown(path))
    return names


def size(least):
    """Reads a number of bytes, as 8G, 500M or 1.5G; G is 2^30."""
    def read(name, word):
        found = re.fullmatch(r"([0-9]{1,12}(?:\.[0-9]{1,6})?) ?([KMGT]?)(?:i?B)?", word, re.IGNORECASE)
        if not found or float(found[1]) * UNITS[found[2].upper()] < least:
            meant = ": %sG?" % word if word.isdigit() and 0 < int(word) < FEW_GB else ""
            raise Misuse("value of %s is out of range: %s; it takes a size as 8G or 500M, from %dM%s" % (name, word or "''", least >> 20, meant))
        return int(float(found[1]) * UNITS[found[2].upper()])
    return read


# KMC's options that have nothing in their place, and what is to be done
OF_KMC = {
    "-okff": ": no KFF is written, but lines of text",
    "-okmc": ": -o NAME.kmc writes a database",
    "-fkmc": ": a database is taken as NAME.kmc, by those commands that take dumps",
    "-fbam": ": BAM is seen from the file's bytes",
    "-r": ": all is held in memory, as far as --memory allows",
    "-j": ": --json FILE tells what was done",
    "-v": ": what was done is told on standard error in any case",
    "-hp": ": --quiet shows no progress",
    "-sm": ": --memory is kept in any case",
    "-w": ": there is no such mode",
}


def nearest(word, words):
    """'; did you mean X?' with the nearest of the words, or nothing where none is near."""
    if word.startswith("-o"):
        return "; a file for the answer is named as in -o FILE"
    found = difflib.get_close_matches(word, words, 1, 0.7)
    return "; did you mean %s?" % found[0] if found else ""


def split(word, names):
    """The option's name in a word and the value that is glued to it, or none."""
    if word.startswith("--"):
        name, equals, value = word.partition("=")
        return name, value if equals else None
    found = [name for name, option in names.items() if word == name or name in option.glued_names() and word.startswith(name)]
    if not found:
        return word, None
    name = max(found, key=len)
    return name, word[len(name):] or None


def take(option, name, glued, rest):
    """The value of an option whose name is read; `rest` are the words behind, of which it may take one."""
    if option.value is None:
        if glued is not None:
            raise Misuse("%s takes no value" % name if name.startswith("--") else "no option %s" % (name + glued))
        return option.constant
    if glued is None:
        if not rest:
            raise Misuse("%s wants a value, %s" % (name, option.value))
        glued = rest.pop(0)
    return option.read(name, glued)


def parse(words, options):
    """What the words ask for: a value for each key, and `files`, the words that are no options."""
    by_name = {name: option for option in options for name in option.all_names()}
    asked = types.SimpleNamespace(files=[], help=False, **{option.key: option.default for option in options})
    seen, rest = set(), list(words)
    while rest:
        word = rest.pop(0)
        if word == "--":
            asked.files += rest
            break
        if word in ("--help", "-h"):
            asked.help = True
            return asked
        if not word.startswith("-") or word == "-":
            asked.files += file_of_names("@", word[1:]) if word.startswith("@") and "--files" in by_name else [word]
            continue
        name, glued = split(word, by_name)
        if name not in by_name:
            told = [it for option in options for it in option.names] + ["--help"]
            raise Misuse("no option %s%s" % (name, OF_KMC.get(name) or nearest(name, told)))
        option = by_name[name]
        if option.key in seen:
            raise Misuse("%s stands twice, or two options say the same" % name)
        seen.add(option.key)
        setattr(asked, option.key, take(option, name, glued, rest))
    asked.files += getattr(asked, "lists", None) or []
    return asked


def help_of(name, command):
    """The help of one command, by its module."""
    lines = ["usage: futoncrane %s %s" % (name, command.USAGE), ""]
    lines += [textwrap.fill(" ".join(text.split()), 100, break_on_hyphens=False) for text in command.TEXT.strip().split("\n\n")] + [""]
    for option in command.OPTIONS:
        if option.names:
            head = ", ".join(option.names) + (" " + option.value if option.value else "")
            text = textwrap.wrap(option.text, 74, break_on_hyphens=False)
            lines.append("  %-22s  %s" % (head, text[0]) if len(head) <= 22 else "  %s\n%26s%s" % (head, "", text[0]))
            lines += ["%26s%s" % ("", it) for it in text[1:]]
    lines += ["  %-22s  %s" % ("--help", "shows this text"), ""]
    return "\n".join([*lines, "examples:", *["  " + it for it in command.EXAMPLES], ""])
