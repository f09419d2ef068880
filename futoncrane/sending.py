"""Pieces of files on their way to a program, through a pipe and by a thread of their own."""
import contextlib
import os
import threading

from futoncrane.feeding import BLOCK, last_byte, passed, widened, write_all
from futoncrane.output import begun


class Sender:
    """Passes pieces of open files, each (descriptor, first byte, byte behind the last), on to a pipe, whose other end is `source`. Where it
    `ends_lines`, a line feed goes behind a piece that ends without one. Whoever has handed `source` to a program calls `begin`, which closes it."""

    def __init__(self, pieces, ends_lines=False):
        self.source, self.sink = os.pipe()
        widened(self.sink)
        self.pieces, self.ends_lines, self.was_whole = pieces, ends_lines, False
        self.thread = threading.Thread(target=self._send, daemon=True)

    def begin(self):
        os.close(self.source)
        self.source = None
        begun(self.thread)

    def drop(self):
        """Closes the pipe, where no program was begun that reads it."""
        if self.source is not None:
            os.close(self.source)
            os.close(self.sink)
            self.source = None

    def _send(self):
        with contextlib.suppress(OSError):  # a program that reads no more has a status that tells
            self.was_whole = all([self._send_one(*it) for it in self.pieces])
        os.close(self.sink)

    def _send_one(self, descriptor, start, end):
        """Sends a piece. Answers whether the file has as many bytes."""
        is_line = not self.ends_lines or last_byte(descriptor, end) == b"\n"
        while start < end:
            moved = passed(self.sink, descriptor, start, min(BLOCK, end - start))
            if moved == 0:
                return False
            start += moved
        if not is_line:
            write_all(self.sink, b"\n")
        return True

    def is_whole(self):
        """Waits for the end of the thread, and tells whether all was passed on."""
        self.thread.join()
        return self.was_whole
