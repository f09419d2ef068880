"""Unpacks standard input to standard output where no program is installed that does: `unpack.py gzip|bzip2|xz`, or packs it: `unpack.py pack`.
It stands alone, since it is run as a program of its own."""
import bz2
import gzip
import lzma
import shutil
import signal
import sys
import zlib

BLOCK = 1 << 18


def main(kind):
    signal.signal(signal.SIGPIPE, signal.SIG_DFL)
    source, sink = sys.stdin.buffer, sys.stdout.buffer
    try:
        if kind == "pack":
            with gzip.GzipFile(fileobj=sink, mode="wb", compresslevel=1, mtime=0) as packed:
                shutil.copyfileobj(source, packed, BLOCK)
        else:
            opened = {"gzip": gzip.open, "bzip2": bz2.open, "xz": lzma.open}[kind](source)
            shutil.copyfileobj(opened, sink, BLOCK)
        sink.flush()
    except (OSError, EOFError, lzma.LZMAError, zlib.error) as fault:
        print(fault, file=sys.stderr)
        return 1
    return 0


if __name__ == "__main__":
    sys.exit(main(sys.argv[1]))
