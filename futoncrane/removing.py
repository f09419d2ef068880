"""Files and folders of the meantime that nobody wants any more, removed while other work goes on: what the system is still writing to the disk
is gone only once that is done."""
import contextlib
import os
import queue
import shutil
import threading

from futoncrane.output import begun


class Remover(threading.Thread):
    """Removes what it is given, one after the other, until its end."""

    def __init__(self):
        super().__init__(daemon=True)
        self.given = queue.SimpleQueue()
        begun(self)

    def run(self):
        for path in iter(self.given.get, None):
            with contextlib.suppress(OSError):  # what is left here is removed when the command ends
                if os.path.isdir(path):
                    shutil.rmtree(path, ignore_errors=True)
                else:
                    os.unlink(path)

    def remove(self, *paths):
        """Has these removed soon."""
        for it in paths:
            self.given.put(it)

    def end(self):
        """Waits until all that was given is gone."""
        self.given.put(None)
        self.join()
