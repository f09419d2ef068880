"""How the text of the inputs comes to a program's standard input: one plain file is handed over, anything else goes through one pipe,
without being copied here where the system can do it."""
import contextlib
import errno
import fcntl
import os
import signal

from futoncrane import packing
from futoncrane.children import all_told, signal_of
from futoncrane.faults import Fault, reason

BLOCK = 1 << 20
F_SETPIPE_SZ = 1031


class GaveUp(Exception):
    """The program reads no more. Its status tells why."""


def widened(pipe):
    """Makes a pipe as wide as the system lets us. It is only the slower where that is refused."""
    with contextlib.suppress(OSError):
        fcntl.fcntl(pipe, F_SETPIPE_SZ, BLOCK)


def write_all(sink, text):
    """Writes all of the text to a descriptor."""
    rest = memoryview(text)
    while rest:
        rest = rest[os.write(sink, rest):]


def passed(sink, descriptor, place=None, most=BLOCK):
    """Has the system move some bytes of a regular file into a pipe: from this place on, or from where it is read. Answers how many."""
    try:
        return os.sendfile(sink, descriptor, place, most)
    except OSError as fault:
        if fault.errno not in (errno.EINVAL, errno.ENOSYS):
            raise
    block = os.read(descriptor, most) if place is None else os.pread(descriptor, most, place)
    write_all(sink, block)
    return len(block)


def last_byte(descriptor, end):
    return os.pread(descriptor, 1, end - 1) if end > 0 else b"\n"


class Feed:
    """The inputs on their way. `source` is the descriptor that the program takes as its standard input, and `close_source` is called
    when it has it; then `give` feeds it. Whoever shows progress asks `place`."""

    def __init__(self, inputs):
        self.inputs, self.children = inputs, None
        self.done, self.now, self.moved = 0, None, 0
        self.is_handed_over = len(inputs) == 1 and not inputs[0].is_stream and inputs[0].packing is None
        if self.is_handed_over:
            self.source, self.sink = inputs[0].open(), None
        else:
            self.source, self.sink = os.pipe()
            widened(self.sink)

    def close_source(self):
        """Lets go of the reading end, so that a program that ends is seen to read no more."""
        if self.source != 0:
            os.close(self.source)

    def close(self):
        """Ends the text. Only after this the program finds its end."""
        if self.sink is not None:
            os.close(self.sink)
            self.sink = None

    def total(self):
        """The bytes of all inputs as they lie in their files, none where there is a stream among them."""
        return None if any(it.is_stream for it in self.inputs) else sum(it.bytes for it in self.inputs)

    def place(self, program):
        """How many bytes of the inputs are read: by us, by the unpacker of the file that is read now, or by the program itself."""
        if self.is_handed_over:
            return position(program, self.inputs[0].start)
        return self.done + self.moved + (position(self.now, 0) if self.now else 0)

    def give(self, children):
        """Feeds the program. The text is not ended: `close` does that, once all is known to be whole."""
        self.children = children
        if self.is_handed_over:
            return
        for number, it in enumerate(self.inputs, 1):
            try:
                self._give_one(it, number == len(self.inputs))
            except BrokenPipeError:
                raise GaveUp from None
            except OSError as fault:
                raise Fault("%s: %s" % (it.shown, reason(fault))) from None
            self.done, self.moved = self.done + it.bytes, 0

    def _give_one(self, it, is_last):
        descriptor = it.open()
        try:
            if it.packing:
                self._unpack(it, descriptor)
                ended = False
            elif it.is_stream:
                ended = self._copy(it, descriptor, self.sink)
            else:
                os.lseek(descriptor, it.start, os.SEEK_SET)
                self._send(descriptor)
                ended = last_byte(descriptor, it.start + it.bytes) == b"\n"
        finally:
            it.close(descriptor)
        if not is_last and not ended:  # so that no two lines become one; a blank line between records is passed over
            write_all(self.sink, b"\n")

    def _send(self, descriptor):
        """Has the system move a regular file into the pipe."""
        for moved in iter(lambda: passed(self.sink, descriptor), 0):
            self.moved += moved

    def _copy(self, it, descriptor, sink):
        """Copies a stream, and tells whether it ends a line."""
        write_all(sink, it.head)
        last = it.head[-1:] or b"\n"
        self.moved += len(it.head)
        for block in iter(lambda: os.read(descriptor, BLOCK), b""):
            write_all(sink, block)
            last = block[-1:]
            self.moved += len(block)
        return last == b"\n"

    def _unpack(self, it, descriptor):
        """Has a program unpack an input into the pipe, and looks at how it ended."""
        command = packing.unpacker(it.packing, it.shown)
        if it.is_stream:
            source, sink = os.pipe()
            child = self.children.start(command, stdin=source, stdout=self.sink)
            os.close(source)
            try:
                self._copy(it, descriptor, sink)
            except BrokenPipeError:
                pass  # the unpacker ended, and its status tells why
            finally:
                os.close(sink)
        else:
            child = self.children.start(command, stdin=descriptor, stdout=self.sink)
            self.now = child
        child.wait()
        self.now = None
        if child.returncode == -signal.SIGPIPE:
            raise GaveUp
        judge_unpacker(it.shown, it.packing, child)
        self.children.forget(child)


def judge_unpacker(name, kind, child):
    """The fault that an unpacker did not unpack the whole file, if so."""
    status, said = child.wait(), all_told(child)
    if status != 0 or packing.is_suspect(said):
        raise Fault(not_unpacked(name, kind, child, said))


def not_unpacked(name, kind, child, said=None):
    """The text of the fault that an unpacker did not come to a good end."""
    status, said = child.returncode, packing.cleaned(all_told(child) if said is None else said)
    said = said or "%s %s" % (os.path.basename(child.args[0]), signal_of(status) or "ended with status %d" % status)
    return "%s: the %s data ends early, is damaged or cannot be read (%s)" % (name, kind, said)


def position(program, start):
    """How many bytes of its standard input a program has read, by its place in the file."""
    try:
        with open("/proc/%d/fdinfo/0" % program.pid, encoding="ascii") as lines:
            return max(0, int(lines.readline().split()[1]) - start)
    except (OSError, ValueError, IndexError):
        return 0
