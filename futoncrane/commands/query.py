"""futoncrane query: the counts that a dump has for given words."""
import os
import re
import sys
import tempfile

from futoncrane import databases, dumping, merging, notes, report, shared
from futoncrane.children import Children
from futoncrane.faults import Fault, Misuse, shown
from futoncrane.inputs import is_same_file
from futoncrane.options import Option
from futoncrane.output import text_output

USAGE = "[--forward | --both-strands] [-o FILE] DUMP [WORD ..]"
TEXT = """
Writes for each word the word, a tab and its count in the dump, which is 0 where the dump does not list it. The words are those of the command
line, or without any those of standard input, one a line; they are answered in their order, in upper case. They have as many letters A, C, G
and T as the dump's k-mers. All of them are held in memory.

A word and its reverse complement have one count, but in a dump that was made with --forward: the note of the dump, DUMP.json, or the header
of a database says so, and --forward or --both-strands where there is neither.

The dump may be packed, and is read once; a database, as NAME.kmc, is searched where its files stand. The counts are found by kmc_db, whose
search is proved.
"""
OPTIONS = [
    Option(["--forward"], "forward", text="looks words up as they are written"),
    Option(["--both-strands"], "forward", constant=False, text="looks a word up under the lesser of it and its reverse complement"),
    shared.QUIET, shared.OUT,
]
WORD = re.compile(rb"[ACGT]{1,64}")
EXAMPLES = ["futoncrane query reads.dump ACGTAACCATTGCATGGACTTAGCAACGTAA", "futoncrane query -o counts.txt reads.kmc < words.txt"]


def main(asked):
    name, *words = asked.files or [None]
    if name is None:
        raise Misuse("no dump is given")
    if name == "-":
        raise Misuse("the dump is a file: standard input has the words")
    if not words and (sys.stdin is None or sys.stdin.isatty()):
        raise Misuse("no word is given, and standard input is a terminal")
    if asked.out is not None and is_same_file(name, asked.out):
        raise Misuse("%s: it is read, and cannot be written at the same time" % shown(asked.out))
    merging.check_names([name])
    setting = shared.settings(asked)
    given = [it.upper() for it in (map(os.fsencode, words) if words else sys.stdin.buffer.read().splitlines())]
    check(given, bool(words))
    apart = is_forward(name, asked)
    with Children() as children, text_output(asked.out, children) as lines:
        lines.writelines(answers(name, given, apart, children, setting))
    return 0


def check(words, is_of_command):
    """That these are words, all of one length."""
    for number, word in enumerate(words, 1):
        place = "word %d, %s" % (number, shown(os.fsdecode(word))) if is_of_command else "standard input: line %d" % number
        if not WORD.fullmatch(word):
            raise Fault("%s: it is no word of 1 to 64 letters A, C, G and T" % place)
        if len(word) != len(words[0]):
            raise Fault("%s: it is not as long as the first word" % place)


def answers(name, words, apart, children, setting):
    """The words with their counts in the dump, a line each, once all are found."""
    with tempfile.TemporaryFile() as file:
        file.writelines(b"%s\n" % it for it in words)
        file.seek(0)
        try:
            return answered(name, file, apart, children, setting)
        except Fault as fault:
            if "line 1 has a word that is not as long as those of" in str(fault):
                raise Fault("%s: its k-mers are not as long as the words" % shown(name)) from None
            raise


def answered(name, words, apart, children, setting):
    """What kmc_db answers to the words of a file: a database of these strands is searched in place, and any other dump is read to its end."""
    stem = databases.stem_of(name)
    if stem is not None and databases.header_of(stem).is_forward == apart:
        return dumping.queried(stem, words, children)
    lines = []
    merging.merged([name], [], children, setting, reader=lines.extend, program="kmc_db", words=["query", *(["-b"] if apart else [])], source=words)
    return lines


def is_forward(name, asked):
    """Whether words are looked up as they are written: as the options say, else as the dump was made."""
    if asked.forward is not None:
        return asked.forward
    known = notes.known([(name, notes.read(name))])
    if not known:
        report.say("%s: no note (DUMP.json) tells whether strands are joined there: words are looked up as if they were (else give --forward)" % (
            shown(name)), asked.quiet)
    return any(note["strands"] == notes.APART for _, note in known)
