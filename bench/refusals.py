#!/usr/bin/env python3
"""The tables of docs/REFUSALS.md and crates/REFUSALS.md against the code: each refusal's number, text and exit status, one line for each difference.

usage: refusals.py [--list]

A type of refusals is a `pub enum` whose name ends in Error, Fault or Refusal, in any crate. Its numbers are those of its function
`number`. The text of a refusal is the one that a `Display` written by hand has for it, since programs print those, and else the one
that it derives. What is filled in is compared as a blank: `{line}` and `{0}` of the code, `<l>` of the table. The exit status is 2
where the function `is_misuse` of an `Ending` says so of it, by itself or as the cause of another refusal, and else 1. With --list
the rows are printed as the code has them, with their cause and state left blank.
"""
import glob
import os
import re
import sys

sys.dont_write_bytecode = True  # no files beside the scripts

from comparing import ended  # noqa: E402

TOP = os.path.join(os.path.dirname(os.path.abspath(__file__)), "..")
TABLES = [os.path.join(TOP, folder, "REFUSALS.md") for folder in ("docs", "crates")]
KIND = r"\w*(?:Error|Fault|Refusal)"
MISUSED, FAILED = "2", "1"

# ---- the code


def block(text, at):
    """What stands between the brace that opens at or behind a place and the one that closes it."""
    start = text.index("{", at)
    depth = 0
    quoted = False
    i = start
    while True:
        c = text[i]
        if quoted:
            i += c == "\\"
            quoted = c != '"'
        elif c == '"':
            quoted = True
        elif c in "{}":
            depth += 1 if c == "{" else -1
            if depth == 0:
                return text[start + 1 : i]
        i += 1


def without_comments(text):
    return re.sub(r"(?m)^\s*//.*\n", "", text)


def sources():
    """The files of the crates, without comments, and with the usage line of a program in the place of its call."""
    with open(os.path.join(TOP, "crates", "kmc_options", "src", "program.rt"), encoding="utf-8") as file:
        usages = dict(re.findall(r'Program::(\w+) =>\s*\{?\s*("usage: [^"]*")', re.sub(r"\\\n\s*", "", file.read())))
    for path in sorted(glob.glob(os.path.join(TOP, "crates", "*", "src", "**", "*.rt"), recursive=True)):
        with open(path, encoding="utf-8") as file:
            text = re.sub(r"Program::(\w+)\.usage\(\)", lambda m: usages[m.group(1)], without_comments(file.read()))
            yield os.path.relpath(path, TOP), text


def variants(body):
    """The variants of an enum, each with the text that it derives and the types of its fields."""
    found = []
    for m in re.finditer(r'(?:#\[error\("((?:[^"\\]|\\.)*)".*\)\]\s*)?\b([A-Z]\w*)(\([^)]*\))?,', body):
        found.append((m.group(2), m.group(1), re.findall(r"\w+", m.group(3) or "")))
    return found


def innermost(pattern):
    """The refusal of which a pattern speaks: the last one that it names. An alternative has one for each."""
    return [re.findall(r"(\w+)::(\w+)", part)[-1] for part in pattern.split("|") if "::" in part]


def arms(body):
    """The patterns of a match and what stands behind each, up to the next one."""
    heads = list(re.finditer(r"((?:\w+::\w+[^=;{}]*?)|_)\s*=>", body))
    for head, after in zip(heads, heads[1:] + [None]):
        yield head.group(1), body[head.end() : after.start() if after else len(body)]


class Code:
    def __init__(self):
        self.numbers = {}
        self.texts = {}
        self.statuses = {}
        self.fields = {}
        self.structs = {}
        self.faults = []
        derived = {}
        delegated = []
        functions = []
        for path, text in sources():
            for m in re.finditer(r"pub enum (" + KIND + r") ", text):
                name = m.group(1)
                listed = variants(block(text, m.end()))
                for variant, shown, fields in listed:
                    key = (name, variant)
                    self.fields[key] = fields
                    if shown is not None:
                        derived[key] = shown
                own = re.search(r"impl " + name + r" \{", text)
                inside = block(text, own.start()) if own else ""
                number = re.search(r"pub fn number\(", inside)
                if not number:
                    self.faults.append(f"{path}: {name} has no function number")
                    continue
                told = set()
                for pattern, then in arms(block(inside, inside.index("\n    {", number.end()))):
                    for key in innermost(pattern):
                        told.add(key[1])
                        value = re.match(r"\s*(\d+)", then)
                        if value:
                            self.numbers[key] = value.group(1)
                        else:
                            delegated.append(key)
                for variant, _, _ in listed:
                    if variant not in told:
                        self.faults.append(f"{path}: {name}::{variant} has no number")
            for m in re.finditer(r"pub struct (" + KIND + r") \{", text):
                self.structs[m.group(1)] = re.findall(r"pub \w+: (\w+)", block(text, m.start()))
            functions.append((path, text))
        for key in delegated:
            self.numbers[key] = "of its cause"
        for path, text in functions:
            for m in re.finditer(r"impl fmt::Display for [^{]*\{", text):
                for pattern, then in arms(block(text, m.end() - 1)):
                    shown = re.search(r'"((?:[^"\\]|\\.)*)"', then)
                    if shown:
                        for key in innermost(pattern):
                            if key in self.fields:
                                self.texts.setdefault(key, set()).add(shown.group(1))
            for m in re.finditer(r"fn is_misuse\(&self\) -> bool \{", text):
                self.read_statuses(block(text, m.start()))
        for key, shown in derived.items():
            self.texts.setdefault(key, {shown})

    def read_statuses(self, body):
        given = {}
        rest = None
        kind = None
        for pattern, then in arms(body):
            value = {"true": MISUSED, "false": FAILED}[re.match(r"\s*(\w+)", then).group(1)]
            if pattern.strip() == "_":
                rest = value
                continue
            outer = re.match(r"(\w+)::(\w+)", pattern)
            kind = outer.group(1)
            for part in re.split(r"\|\s*(?=" + kind + "::)", pattern):
                head = re.match(r"(\w+)::(\w+)", part).groups()
                inner = [k for k in re.findall(r"(\w+)::(\w+)", part) if k[0] != kind]
                for key in inner or [head]:
                    self.spread(key, value, given)
                self.statuses.setdefault(head, set()).add(value)
        if rest is not None:
            for key in [k for k in self.fields if k[0] == kind]:
                self.spread(key, rest, given)
        for key, value in given.items():
            self.statuses.setdefault(key, set()).add(value)

    def spread(self, key, value, given):
        """A refusal has this status, and each that is its cause, unless an arm before this one gave it another."""
        given.setdefault(key, value)
        fields = list(self.fields.get(key, []))
        while fields:
            field = fields.pop()
            fields += self.structs.get(field, [])
            for cause in [k for k in self.fields if k[0] == field and k[0] != key[0]]:
                if cause not in given:
                    self.spread(cause, value, given)


# ---- the table


def rows():
    for path in TABLES:
        with open(path, encoding="utf-8") as file:
            for line in file:
                cells = [c.strip().replace("\\|", "|") for c in re.split(r"(?<!\\)\|", line.rstrip("\n"))[1:-1]]
                if cells and re.fullmatch(r"`\w+::\w+`", cells[0]):
                    yield cells


def blanks(text):
    return re.sub(r"\{[^}]*\}|<[^>]*>", "<>", text)


def texts_of(code, key):
    """The texts of a refusal; none where it has none, or shows its cause alone."""
    return {blanks(t) for t in code.texts.get(key, ())} - {"<>"}


def main():
    code = Code()
    if "--list" in sys.argv[1:]:
        for key in code.numbers:
            shown = " ".join(f"`{t}`" for t in sorted(code.texts.get(key, ()))).replace("|", "\\|")
            status = "/".join(sorted(code.statuses.get(key, "-")))
            print(f"| `{key[0]}::{key[1]}` | {code.numbers[key]} | | {shown or '-'} | {status} | |")
        return 0
    faults = list(code.faults)
    listed = set()
    for cells in rows():
        name = cells[0].strip("`")
        key = tuple(name.split("::"))
        if key in listed:
            faults.append(f"{name} stands twice in the table")
        listed.add(key)
        if len(cells) != 6:
            faults.append(f"{name} has {len(cells)} columns in the table, and not 6")
            continue
        if key not in code.numbers:
            faults.append(f"{name} stands in the table and not in the code")
            continue
        _, number, cause, text, status, after = cells
        if number != code.numbers[key]:
            faults.append(f"{name} is number {number} in the table and {code.numbers[key]} in the code")
        told = {blanks(t) for t in re.findall(r"`([^`]*)`", text)}
        if told != texts_of(code, key):
            faults.append(f"{name} has the text {sorted(told)} in the table and {sorted(texts_of(code, key))} in the code")
        ends = set(re.findall(r"\d", status))
        if ends != code.statuses.get(key, set()):
            faults.append(f"{name} ends with {sorted(ends)} in the table and {sorted(code.statuses.get(key, set()))} in the code")
        if not cause or not after:
            faults.append(f"{name} has no cause or no state in the table")
    for key in code.numbers:
        if key not in listed:
            faults.append(f"{key[0]}::{key[1]} stands in the code and not in the table")
    return ended("refusals", faults, f"the tables have the {len(listed)} refusals of the code, with their numbers, texts and exit statuses")


if __name__ == "__main__":
    sys.exit(main())
