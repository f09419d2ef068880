"""What kmc_db writes of a database: its dump, for whoever reads a dump, and the counts of given words."""
import signal
import subprocess

from futoncrane import databases, places
from futoncrane.children import signal_of, told
from futoncrane.faults import Fault


def word_of(stem):
    """The name of a database as a word that is no option."""
    return "./" + stem if stem.startswith("-") else stem


def dumped(stem, children, sink):
    """The program that writes the dump of a database into `sink`."""
    databases.checked(stem)
    return children.start([places.find("kmc_db"), "dump", word_of(stem)], stdin=subprocess.DEVNULL, stdout=sink)


def queried(stem, words, children):
    """The lines with the counts of the words of an open file in a database, which is searched where its files stand."""
    child = children.start([places.find("kmc_db"), "query", word_of(stem) + databases.PREFIX], stdin=words, stdout=subprocess.PIPE)
    with child.stdout:
        lines = child.stdout.readlines()
    judge(stem, child)
    children.forget(child)
    return lines


def judge(name, child):
    """The fault of a database that was not read whole, if so. A program that wrote into a closed pipe says nothing of it."""
    status, said = child.wait(), told(child).partition(": ")[2]
    if status in (0, -signal.SIGPIPE) or status == 1 and not said:
        return
    raise Fault(said or "%s: kmc_db %s" % (name, signal_of(status) or "ended with status %d" % status))
