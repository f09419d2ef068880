"""Folders of the meantime: which are gone when the command ends, or kept for a later run."""
import contextlib
import fcntl
import json
import os
import shutil
import tempfile

from futoncrane import leftovers
from futoncrane.children import EMPTIED, FOLDERS, held_signals
from futoncrane.faults import Fault, reason, shown
from futoncrane.memory import human

KEPT = "futoncrane-slices"


def place_for(directory, out):
    """Where a folder of the meantime is made: in this directory, else beside the output, else where the system has such files."""
    if directory is not None:
        if not os.path.isdir(directory):
            raise Fault("%s: there is no such folder" % shown(directory))
        return directory
    if out is not None and (os.path.isfile(out) or not os.path.exists(out)):
        folder = os.path.dirname(os.path.realpath(out))
        if os.path.isdir(folder):
            return folder
    return tempfile.gettempdir()


def made(place):
    """A new folder, which is gone when the command ends."""
    with held_signals():
        try:
            path = leftovers.new_folder(place)
        except OSError as fault:
            raise Fault("%s: %s" % (shown(place), reason(fault))) from None
        FOLDERS.add(path)
    return path


def dropped(path):
    """Removes a folder."""
    with held_signals():
        shutil.rmtree(path, ignore_errors=True)
        FOLDERS.discard(path)


def check_room(place, wanted, advice="name another folder by --directory"):
    """Refuses what is estimated not to fit the disk."""
    free = shutil.disk_usage(place).free
    if wanted > free:
        raise Fault("%s: the slices are estimated to take %s on its disk, and %s are free: %s" % (shown(place), human(wanted), human(free), advice))


class Kept:
    """The folder of a run that another one may go on with. It is one run's at a time. `note` says of which reads its files are."""

    def __init__(self, directory):
        self.path = os.path.join(directory, KEPT)
        EMPTIED.add(self.path)
        try:
            os.makedirs(self.path, exist_ok=True)
            self.lock = os.open(self.path, os.O_RDONLY | os.O_CLOEXEC)
            fcntl.flock(self.lock, fcntl.LOCK_EX | fcntl.LOCK_NB)
        except BlockingIOError:
            raise Fault("%s: another run uses it" % shown(self.path)) from None
        except OSError as fault:
            raise Fault("%s: %s" % (shown(self.path), reason(fault))) from None

    def has(self, note):
        """Whether the files are those that this note tells of."""
        try:
            with open(os.path.join(self.path, "note"), encoding="ascii") as text:
                return json.load(text) == note
        except (OSError, ValueError):
            return False

    def set(self, note):
        """Writes the note, once all of which it tells is there."""
        path = os.path.join(self.path, "note")
        with open(path + ".new", "w", encoding="ascii") as text:
            json.dump(note, text)
            text.flush()
            os.fsync(text.fileno())
        os.replace(path + ".new", path)

    def clear(self):
        """Removes what an earlier run left."""
        for name in os.listdir(self.path):
            with contextlib.suppress(OSError):
                os.unlink(os.path.join(self.path, name))
