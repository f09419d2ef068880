#!/usr/bin/env python3
"""The options of the programs, as crates/kmc_options has them, against the usage lines, the help texts and the manual pages: one line for
each difference.

usage: options.py [--list]

The options, the flags and the usage line of a program are those of its tables in program.rt; the names stand in named.rt, and the ranges
and defaults in setting.rt. A usage line and a synopsis name each of them and no other, a help text and a page have an entry for each, and an
entry tells the range and the default. --help and --version are of all programs but kmc, -slices and --force of kmc_cut, and -oc, -b, -lci,
-lcx, -rci and -rcx of kmc_db: they have no table. The help of kmc_db has the usage lines of what crates/kmc_db does, too, and what
`kmc_db pack` and `kmc_db count` take is that of their own.
With --list the tables are printed.
"""
import glob
import os
import re
import sys

sys.dont_write_bytecode = True  # no files beside the scripts

from comparing import ended  # noqa: E402

TOP = os.path.join(os.path.dirname(os.path.abspath(__file__)), "..")
CRATES = os.path.join(TOP, "crates")
NAMES = {"Kmc": "kmc", "KmcMerge": "kmc_merge", "KmcCut": "kmc_cut", "KmcList": "kmc_list", "KmcDb": "kmc_db"}
TEXTS = {"-help", "-version"}
OWN = {"kmc": set(), "kmc_merge": TEXTS, "kmc_cut": {"slices", "-force"} | TEXTS, "kmc_list": TEXTS,
       "kmc_db": {"oc", "b", "lci", "lcx", "rci", "rcx"} | TEXTS}
# what the page and the help of kmc_db tell, and its usage line leaves out
LEFT_OUT = {"lci", "lcx", "rci", "rcx"}
# the uses of kmc_db that make a database, and the files that have their usage lines
MAKING = {"pack": "packing", "count": "counting"}
# a default that no page tells, since the program chooses where the option does not stand
CHOSEN = {"p"}
# a range that a text for everyone leaves out: any count
COUNTS = {"ci", "cx", "cs"}

# ---- the code


def text_of(*path):
    with open(os.path.join(CRATES, *path), encoding="utf-8") as file:
        return file.read()


def options_text(name):
    return text_of("kmc_options", "src", name)


def constants():
    """The constants of all crates; of two with one name that of kmc_options, where ranges stand."""
    found = {}
    paths = glob.glob(os.path.join(CRATES, "kmc_*", "src", "**", "*.rt"), recursive=True)
    for path in sorted(paths, key=lambda it: os.path.join(CRATES, "kmc_options") in it):
        with open(path, encoding="utf-8") as file:
            for name, value in re.findall(r"const (\w+): \w+ = ([^;]+);", file.read()):
                found[name] = value
    return found


def number(value, known):
    """The number of a constant's term: digits, a power of two, or another constant."""
    value = value.strip()
    if re.fullmatch(r"[\d_]+", value):
        return int(value.replace("_", ""))
    shift = re.fullmatch(r"1 << (\d+)", value)
    if shift:
        return 1 << int(shift.group(1))
    return number(known[re.fullmatch(r"(\w+)(?: as \w+)?", value).group(1)], known)


def names_of(kind):
    """The name of each variant of an enum of named things."""
    body = options_text("named.rt").split(f"impl Named for {kind} ")[1].split("\nimpl ")[0]
    return dict(re.findall(kind + r'::(\w+) => "(\w+)"', body))


def bounds():
    known = constants()
    found = {}
    body = options_text("setting.rt").split("pub fn bounds(self)")[1].split("\n    }\n")[0]
    for variants, values in re.findall(r"((?:Setting::\w+(?: \| )?)+) => Bounds::new\(([^)]*)\)", body):
        for variant in re.findall(r"Setting::(\w+)", variants):
            found[variant] = tuple(number(value, known) for value in values.split(","))
    return found


def tables():
    """For each program its options, with least and greatest number and default, and its flags."""
    settings, flags, ranges = names_of("Setting"), names_of("Flag"), bounds()
    text = options_text("program.rt") + options_text("named.rt")
    listed = {name: re.findall(r"(?:Setting|Flag)::(\w+)", body) for name, body in re.findall(r"const (\w+): \[\w+; \d+\] =\s*\[([^\]]*)\];", text)}

    def of(function, program):
        body = text.split(f"fn {function}(self)")[1].split("\n    }\n")[0]
        return listed.get(re.search(r"Program::" + program + r" => &(\w*)", body).group(1), [])

    return {
        name: ({settings[it]: ranges[it] for it in of("options", program)}, {flags[it] for it in of("flags", program)})
        for program, name in NAMES.items()
    }


# ---- what tells of them


def usage_of(name):
    """What a usage line says behind the program's name."""
    text = re.search(r'"usage: ' + name + r' ([^"]*)"', options_text("program.rt")).group(1)
    return re.sub(r"\\\n *", "", text)


def sources():
    """The text of each file of code."""
    for path in sorted(glob.glob(os.path.join(CRATES, "kmc_*", "src", "**", "*.rt"), recursive=True)):
        with open(path, encoding="utf-8") as file:
            yield file.read()


def help_of(name):
    """The usage lines of a help text, behind the program's name, and its entries by name; none where the program has no help."""
    for source in sources():
        text = re.search(r"const HELP: &'static str =\s*\"(" + name + r": [^\"]*)\"", source)
        if text:
            lines = text.group(1).replace("\\n", "\n").split("\n")
            usages = [line[len("usage: ") + len(name) + 1:] for line in lines if line.startswith((f"usage: {name} ", f"       {name} "))]
            entries = {}
            for line in lines:
                entry = re.match(r"  (-\S+(?: -\S+)*)  +(.*)", line)
                if entry:
                    for word in entry.group(1).split():
                        entries[re.match(r"-(-?\w+)", word).group(1)] = entry.group(2)
            return usages, entries
    return None, None


def more_usages():
    """What kmc_db does by crates/kmc_db and crates/kmc_spectrum, by its usage lines behind the program's name."""
    found = set()
    for path in [it for crate in ("kmc_db", "kmc_spectrum") for it in glob.glob(os.path.join(CRATES, crate, "src", "*.rt"))]:
        with open(path, encoding="utf-8") as file:
            found |= set(re.findall(r'"usage: kmc_db ([^"]*)"', file.read()))
    return found


def page_of(name):
    """The options of a page's synopsis, and its entries by name."""
    with open(os.path.join(TOP, "docs", name + ".1"), encoding="utf-8") as file:
        page = file.read()
    uses = page.split(".Sh SYNOPSIS\n")[1].split(".Sh ")[0].split(".Nm\n")
    synopsis = "".join(use for use in uses if not use.startswith((".Cm pack\n", ".Cm count\n")))
    entries = {}
    for entry in page.split(".Sh OPTIONS\n")[1].split(".Sh ")[0].split("\n.It ")[1:]:
        head, _, text = entry.partition("\n")
        for option in re.findall(r"Fl (\S+)", head):
            entries[option] = " ".join(text.split("\n.El")[0].split())
    return set(re.findall(r"Fl (\S+)", synopsis)), entries


def options_of_use(use):
    """What the usage line of a use of kmc_db that makes a database takes."""
    with open(os.path.join(CRATES, "kmc_db", "src", MAKING[use] + ".rt"), encoding="utf-8") as file:
        return set(re.findall(r"\[-(-?[a-z]+)", file.read().partition(f"usage: kmc_db {use}")[2].partition('"')[0]))


def faults_of_use(use):
    """What the synopsis of such a use and its usage line do not share."""
    usage = options_of_use(use)
    with open(os.path.join(TOP, "docs", "kmc_db.1"), encoding="utf-8") as file:
        page = set(re.findall(r"Fl (\S+)", file.read().partition(f".Cm {use}\n")[2].partition(".Nm\n")[0]))
    return [] if usage and usage == page else [f"the synopsis of kmc_db {use} has {sorted(page)}, and its usage line {sorted(usage)}"]


def tells(text, value):
    """Whether a text tells a number, in digits or as a power of ten."""
    short = f"10^{len(str(value)) - 1}" if set(str(value)[1:]) == {"0"} else ""
    return any(it and re.search(r"(?<![\d^])" + re.escape(it) + r"(?![\d^])", text) for it in (str(value), short))


def main():
    told = tables()
    if "--list" in sys.argv[1:]:
        for name, (options, flags) in told.items():
            for option, (least, most, default) in options.items():
                print(f"{name}\t-{option}\t{least}\t{most}\t{default}")
            for flag in sorted(flags):
                print(f"{name}\t-{flag}")
        return 0
    faults = []

    def same(where, found, wanted):
        for it in sorted(found - wanted):
            faults.append(f"{where} has -{it}, which the table has not")
        for it in sorted(wanted - found):
            faults.append(f"{where} has no -{it}, which the table has")

    def ranges(where, entries, options, all_ranges):
        for option, (least, most, default) in options.items():
            text = entries.get(option, "")
            if (all_ranges or option not in COUNTS) and not re.search(rf"(?<!\d){least} to {most}(?!\d)", text):
                faults.append(f"{where} does not tell of -{option} that its range is {least} to {most}")
            if (not all_ranges or option not in CHOSEN) and not tells(text, default):
                faults.append(f"{where} does not tell of -{option} that its default is {default}")

    for name, (options, flags) in told.items():
        names = set(options) | flags
        usage = usage_of(name)
        same(f"the usage line of {name}", set(re.findall(r"(?<!\w)-(-?[a-z]+)", usage)), names | (OWN[name] - TEXTS - LEFT_OUT))
        shown, entries = help_of(name)
        if shown is not None:
            more = more_usages() if name == "kmc_db" else set()
            if set(shown) != set(usage.split(f", or {name} ")) | more:
                faults.append(f"the help of {name} has other usage lines")
            same(f"the help of {name}", set(entries), names | (OWN[name] - TEXTS) | (set().union(*map(options_of_use, MAKING)) if more else set()))
            ranges(f"the help of {name}", entries, options, False)
        synopsis, items = page_of(name)
        same(f"the synopsis of docs/{name}.1", synopsis, names | OWN[name])
        same(f"docs/{name}.1", set(items), names | OWN[name])
        ranges(f"docs/{name}.1", items, options, True)
    for use in MAKING:
        faults += faults_of_use(use)
    return ended("options", faults, f"the usage lines, help texts and pages have the options of {', '.join(told)}, with their ranges and defaults")


if __name__ == "__main__":
    sys.exit(main())
