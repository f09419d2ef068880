"""Children: started so that none outlives the command, and ended together."""
import contextlib
import ctypes
import os
import resource
import shutil
import signal
import subprocess
import sys

from futoncrane.faults import Ended, Fault, reason, shown

ENDING = (signal.SIGINT, signal.SIGTERM, signal.SIGHUP)
# these, and the one that brings back a signal that Python passed over
HELD = (*ENDING, signal.SIGALRM)
# seconds until it comes back
PAUSE = 0.01
PR_SET_PDEATHSIG = 1
# a merge of 1000 dumps has so many files open, and some more
MOST_OPEN = 4096

try:
    PRCTL = ctypes.CDLL(None).prctl
except (OSError, AttributeError):
    PRCTL = None  # no Linux: then a killed command can leave its children


@contextlib.contextmanager
def held_signals():
    """Holds the signals back, so that what is made is also noted. Gives the mask that was before."""
    before = signal.pthread_sigmask(signal.SIG_BLOCK, HELD)
    try:
        yield before
    finally:
        signal.pthread_sigmask(signal.SIG_SETMASK, before)


def too_late():
    """Has the signals do nothing from now on: the answer is there. One that comes meanwhile is held back, and then passed over."""
    with held_signals():
        signal.setitimer(signal.ITIMER_REAL, 0)
        for it in HELD:
            signal.signal(it, signal.SIG_IGN)


def end(number, frame):
    """Ends the command by an exception, once: what cleans up is not interrupted."""
    too_late()
    raise Ended(number)


def come_again(passed):
    """Where Python passes over the exception of a signal, as in what it does while it cleans up behind an import, it is raised again soon."""
    if not isinstance(passed.exc_value, Ended):
        sys.__unraisablehook__(passed)
        return
    number = passed.exc_value.number
    signal.signal(signal.SIGALRM, lambda alarm, frame: end(number, frame))
    signal.setitimer(signal.ITIMER_REAL, PAUSE)


def catch_signals():
    """Has the signals that end a command raise Ended, but for those that the caller has it ignore."""
    sys.unraisablehook = come_again
    for it in ENDING:
        if signal.getsignal(it) != signal.SIG_IGN:
            signal.signal(it, end)


def open_more():
    """Has this process open as many files as it may, up to a bound, and gives how many."""
    now, most = resource.getrlimit(resource.RLIMIT_NOFILE)
    wanted = MOST_OPEN if most == resource.RLIM_INFINITY else min(most, MOST_OPEN)
    if now != resource.RLIM_INFINITY and now < wanted:
        resource.setrlimit(resource.RLIMIT_NOFILE, (wanted, most))
        return wanted
    return MOST_OPEN if now == resource.RLIM_INFINITY else now


def in_child(mask, space):
    """What a child does before its program begins: it ends with its parent, and takes at most `space` bytes of addresses."""
    parent = os.getpid()

    def act():
        if PRCTL:
            PRCTL(PR_SET_PDEATHSIG, signal.SIGKILL)
            if os.getppid() != parent:
                os._exit(1)
        signal.pthread_sigmask(signal.SIG_SETMASK, mask)
        open_more()
        if space:
            resource.setrlimit(resource.RLIMIT_AS, (space, space))
    return act


# what is to be gone when the command ends, whichever moment a signal comes at: children, and files and folders of the meantime
# (a folder of EMPTIED goes only where nothing is in it)
RUNNING, TEMPORARY, FOLDERS, EMPTIED = [], set(), set(), set()


def sweep():
    """Ends all children and removes all files and folders of the meantime."""
    with held_signals():
        for it in RUNNING:
            if it.poll() is None:
                it.kill()
            it.wait()
            for pipe in (it.stdin, it.stdout, it.stderr):
                if pipe:
                    with contextlib.suppress(OSError):
                        pipe.close()
        RUNNING.clear()
        for it in TEMPORARY:
            with contextlib.suppress(OSError):
                os.unlink(it)
        TEMPORARY.clear()
        for it in FOLDERS:
            shutil.rmtree(it, ignore_errors=True)
        FOLDERS.clear()
        for it in EMPTIED:
            with contextlib.suppress(OSError):
                os.rmdir(it)
        EMPTIED.clear()


class Children:
    """The processes of a run, all started by the main thread. Whatever still runs when this is left is killed."""

    def __enter__(self):
        return self

    def __exit__(self, *fault):
        sweep()

    def start(self, command, space=None, **pipes):
        """Starts a program. Its faults are kept, for `told`."""
        with held_signals() as mask:
            try:
                child = subprocess.Popen(command, stderr=subprocess.PIPE, preexec_fn=in_child(mask, space), **pipes)
            except (OSError, subprocess.SubprocessError) as fault:
                why = reason(fault) if isinstance(fault, OSError) else "it cannot be started"
                raise Fault("%s: %s" % (shown(command[0]), why)) from None
            RUNNING.append(child)
        return child

    def forget(self, child):
        """Lets go of a child that has ended."""
        child.stderr.close()
        RUNNING.remove(child)


def ended(child):
    """Waits for a child's end: its status, and how many bytes it wrote, as the system has counted them; none where it does not tell."""
    written = None
    with contextlib.suppress(OSError, ValueError, StopIteration):
        os.waitid(os.P_PID, child.pid, os.WEXITED | os.WNOWAIT)
        with open("/proc/%d/io" % child.pid, encoding="ascii") as lines:
            written = next(int(line.split()[1]) for line in lines if line.startswith("wchar:"))
    return child.wait(), written


def has_ended(child):
    """Whether a child has ended. Its end is still to be waited for."""
    return os.waitid(os.P_PID, child.pid, os.WEXITED | os.WNOWAIT | os.WNOHANG) is not None


def all_told(child):
    """What a program that ended said on standard error."""
    return child.stderr.read().decode(errors="replace")


def told(child):
    """The same in one line."""
    return " ".join(all_told(child).split())


def signal_of(status):
    """How a signal ended a program: 'was ended by SIGKILL'; nothing where none did."""
    if status >= 0:
        return ""
    try:
        return "was ended by " + signal.Signals(-status).name
    except ValueError:
        return "was ended by signal %d" % -status
