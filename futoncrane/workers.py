"""What a worker of `futoncrane cluster` does. These functions are sent to it by value, so they use nothing of this package: a worker's machine
has the programs, and need not have the command."""
import contextlib
import errno
import fcntl
import os
import resource
import shutil
import signal
import subprocess
import uuid

BLOCK = 1 << 20
F_SETPIPE_SZ = 1031
MOST_OPEN = 4096


def program(name, path):
    """The program that the client found, else the one in the worker's PATH."""
    for it in (path, shutil.which("futoncrane-" + name.replace("_", "-"))):
        if it and os.access(it, os.X_OK):
            return it
    raise RuntimeError("the program %s is not on %s, neither as %s nor as futoncrane-%s in PATH" % (
        name, os.uname().nodename, path, name.replace("_", "-")))


def name_of_machine():
    return os.uname().nodename


def open_more():
    """Has this process and its children open as many files as they may: a program has one for each slice."""
    now, most = resource.getrlimit(resource.RLIMIT_NOFILE)
    wanted = MOST_OPEN if most == resource.RLIM_INFINITY else min(most, MOST_OPEN)
    if now != resource.RLIM_INFINITY and now < wanted:
        resource.setrlimit(resource.RLIMIT_NOFILE, (wanted, most))


def environment():
    """The environment of a program that counts, as futoncrane.memory tells it: what is freed goes back to the system."""
    return dict({"MALLOC_MMAP_THRESHOLD_": "65536"}, **os.environ)


def passed(sink, file, place, most):
    """Has the system move some bytes of a file into a pipe, from this place on, or where it does not, copies them. Answers how many."""
    try:
        return os.sendfile(sink, file, place, most)
    except OSError as fault:
        if fault.errno not in (errno.EINVAL, errno.ENOSYS):
            raise
    rest = memoryview(os.pread(file, most, place))
    moved = len(rest)
    while rest:
        rest = rest[os.write(sink, rest):]
    return moved


def feed(child, path, start, end):
    """Gives the bytes of the file from start to end to the program's standard input, and closes that."""
    with open(path, "rb", buffering=0) as file, contextlib.suppress(BrokenPipeError), child.stdin as sink:
        with contextlib.suppress(OSError):  # it is only the slower where a wider pipe is refused
            fcntl.fcntl(sink, F_SETPIPE_SZ, BLOCK)
        while start < end:
            moved = passed(sink.fileno(), file.fileno(), start, min(BLOCK, end - start))
            if not moved:
                raise RuntimeError("%s: it became shorter" % path)
            start += moved


def unpack(child, command, path):
    """Unpacks the file into the program's standard input, and closes that."""
    name = os.path.basename(command[0])
    with open(path, "rb") as packed:
        ran = subprocess.run([shutil.which(name) or command[0], *command[1:]], stdin=packed, stdout=child.stdin, stderr=subprocess.PIPE)
    child.stdin.close()
    if ran.returncode == -signal.SIGPIPE:
        child.wait()
    is_cut = any(it in ran.stderr for it in (b"trailing", b"EOF marker is absent", b"truncated"))
    if is_cut or ran.returncode not in (0, -signal.SIGPIPE) or (ran.returncode and child.returncode == 0):
        raise RuntimeError("%s: %s cannot unpack it: it ends early, is damaged or cannot be read" % (path, name))


def run_cut(part, command):
    """Cuts a part by the command."""
    path, packing, start, end = part
    child = subprocess.Popen(command, env=environment(), stdin=subprocess.PIPE, stdout=subprocess.DEVNULL, stderr=subprocess.PIPE)
    try:
        if packing is None:
            feed(child, path, start, end)
        else:
            unpack(child, packing, path)
        message = child.stderr.read().decode(errors="replace").strip()
        if child.wait() != 0:
            raise RuntimeError("%s, lines counted from byte %d on: %s" % (
                path, start, message.replace("kmc_cut: ", "", 1) or "kmc_cut was ended by signal %d" % -child.returncode))
    finally:
        child.kill()
        child.wait()
        child.stderr.close()


def cut_part(number, part, path, options, slices, directory):
    """Cuts a part into a file in the folder of each slice, unless an earlier try did. A file has its name once all are whole. Answers how many
    bytes each has."""
    done = os.path.join(directory, "cut", str(number))
    files = [os.path.join(directory, "slice-%d" % it, str(number)) for it in range(slices)]
    if not os.path.exists(done):
        work = os.path.join(directory, "work", uuid.uuid4().hex)
        open_more()
        run_cut(part, [program("kmc_cut", path), *options, "-slices%d" % slices, work])
        for it, path_of_slice in enumerate(files):
            os.replace("%s.%d" % (work, it), path_of_slice)
        with open(done, "wb"):
            pass
    return [os.path.getsize(it) for it in files]


def list_slice(number, parts, path, options, directory):
    """Lists a slice from the files of all parts, unless an earlier try did. The names are short, since so many are one command line."""
    dump = os.path.join(directory, "dump", str(number))
    if not os.path.exists(dump):
        work = os.path.join(directory, "work", uuid.uuid4().hex)
        names = [str(it) for it in range(parts)]
        with open(work, "wb") as out:
            ran = subprocess.run([program("kmc_list", path), *options, *names], cwd=os.path.join(directory, "slice-%d" % number),
                                 env=environment(), stdin=subprocess.DEVNULL, stdout=out, stderr=subprocess.PIPE)
        if ran.returncode != 0:
            message = ran.stderr.decode(errors="replace").strip().replace("kmc_list: ", "", 1)
            raise RuntimeError("slice %d: %s" % (number, message or "kmc_list was ended by signal %d" % -ran.returncode))
        os.replace(work, dump)
    return number
