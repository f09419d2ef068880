"""Where things lie: the proved programs, the example, the version."""
import os
import subprocess

from futoncrane.faults import Fault, reason

# the folder that has the package, VERSION and examples/: the top of a checkout, or share/futoncrane where it is installed
TOP = os.path.dirname(os.path.dirname(os.path.realpath(__file__)))
READS = os.path.join(TOP, "examples", "reads.fastq")
DUMP = os.path.join(TOP, "examples", "reads.dump")

# the name of a program in a checkout, and where it is installed: Debian's `kmc` is another program
INSTALLED = {"kmc": "futoncrane-kmc", "kmc_cut": "futoncrane-kmc-cut", "kmc_list": "futoncrane-kmc-list", "kmc_merge": "futoncrane-kmc-merge",
             "kmc_db": "futoncrane-kmc-db"}

# a word that no program takes: it answers with its usage; the seconds that it may take; and those that have answered
QUESTION, PATIENCE, KNOWN = "--who-is-it", 20, set()

# the folder of the command as it was called
BESIDE = [TOP]


def version():
    """The version, as the file VERSION has it."""
    with open(os.path.join(TOP, "VERSION"), encoding="ascii") as text:
        return text.read().strip()


def is_program(path):
    return os.path.isfile(path) and os.access(path, os.X_OK)


def in_path(name):
    """The path of a program that is in PATH, or none."""
    for folder in os.environ.get("PATH", os.defpath).split(os.pathsep):
        path = os.path.join(folder, name)
        if is_program(path):
            return path
    return None


def checked(path, name):
    """The path of a program that tells by its own usage that it is the one that is meant. It is asked once."""
    if (path, name) not in KNOWN:
        try:
            ran = subprocess.run([path, QUESTION], stdin=subprocess.DEVNULL, stdout=subprocess.PIPE, stderr=subprocess.STDOUT, timeout=PATIENCE)
            answer = ran.stdout
        except subprocess.TimeoutExpired:
            answer = b""
        except OSError as fault:
            raise Fault("%s: it cannot be run: %s" % (path, reason(fault))) from None
        if not answer.startswith(b"usage: %s " % name.encode()):
            raise Fault("%s: it is not the program %s of futoncrane, but another one of this name, as KMC 3 has it: set FUTONCRANE_BIN to the folder "
                        "of %s" % (path, name, INSTALLED[name]))
        KNOWN.add((path, name))
    return path


def find(name):
    """The path of a proved program: in the folder FUTONCRANE_BIN where that is set, else beside this command, else in PATH."""
    installed, folder = INSTALLED[name], os.environ.get("FUTONCRANE_BIN")
    if folder:
        tried = [os.path.join(folder, it) for it in (installed, name)]
    else:
        tried = [os.path.join(TOP, name)] + [os.path.join(it, installed) for it in BESIDE] + [in_path(installed) or ""]
    for path in tried:
        if is_program(path):
            return checked(os.path.abspath(path), name)
    raise Fault("the program %s is not there: %s" % (name, "FUTONCRANE_BIN=%s has neither %s nor %s" % (folder, installed, name)
                if folder else "it is looked for beside futoncrane and as %s in PATH; set FUTONCRANE_BIN to its folder" % installed))
