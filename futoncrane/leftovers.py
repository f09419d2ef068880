"""Files and folders of the meantime: one is locked as long as its run lives, so that the next run removes what a killed one left."""
import contextlib
import fcntl
import os
import shutil
import stat
import tempfile

PREFIX = ".futoncrane-"
TRIES = 100


def swept(place):
    """Removes what runs left in this folder that are no more."""
    with contextlib.suppress(OSError), os.scandir(place) as found:
        for it in found:
            if it.name.startswith(PREFIX):
                with contextlib.suppress(OSError):
                    _remove_dead(it.path)


def _remove_dead(path):
    """Removes it where nobody holds its lock."""
    descriptor = os.open(path, os.O_RDONLY | os.O_NOFOLLOW | os.O_NONBLOCK | os.O_CLOEXEC)
    try:
        fcntl.flock(descriptor, fcntl.LOCK_EX | fcntl.LOCK_NB)
        if stat.S_ISDIR(os.fstat(descriptor).st_mode):
            shutil.rmtree(path, ignore_errors=True)
        elif stat.S_ISREG(os.fstat(descriptor).st_mode):
            os.unlink(path)
    finally:
        os.close(descriptor)


def _locked(descriptor, path):
    """Locks what was just made. Whether it is still there: another run may have taken it for one that was left."""
    with contextlib.suppress(OSError):  # a file system without locks: then nothing is removed there either
        fcntl.flock(descriptor, fcntl.LOCK_EX)
    return os.path.exists(path)


def new_file(place):
    """A new file: its descriptor, by which it is locked, and its path."""
    swept(place)
    for _ in range(TRIES):
        descriptor, path = tempfile.mkstemp(prefix=PREFIX, dir=place)
        if _locked(descriptor, path):
            return descriptor, path
        os.close(descriptor)
    raise FileExistsError("no new file can be made")


def new_folder(place):
    """A new folder, locked by a descriptor that is open until this process ends."""
    swept(place)
    for _ in range(TRIES):
        path = tempfile.mkdtemp(prefix=PREFIX, dir=place)
        descriptor = os.open(path, os.O_RDONLY | os.O_CLOEXEC)
        if _locked(descriptor, path):
            return path
        os.close(descriptor)
    raise FileExistsError("no new folder can be made")
