/* A preloaded library that makes standard input and standard output fail. READ_BLOCK and WRITE_BLOCK are the most bytes that a call of
   read or write passes on; the read with the number FAIL_READ fails; once FAIL_WRITE bytes were written, a write fails, or takes
   none where TAKE_NONE stands in the environment. The place of each write call's end is written to descriptor 9 where WRITE_ENDS stands
   there. devices.py compiles it. */
#include <errno.h>
#include <stdio.h>
#include <stdlib.h>
#include <string.h>
#include <sys/syscall.h>
#include <unistd.h>

static long reads, written;

static long told(const char *name, long otherwise)
{
    const char *text = getenv(name);
    return text ? atol(text) : otherwise;
}

ssize_t read(int file, void *buffer, size_t size)
{
    if (file == 0) {
        size_t most = (size_t)told("READ_BLOCK", 1L << 30);
        reads++;
        if (reads == told("FAIL_READ", 0)) {
            errno = EIO;
            return -1;
        }
        size = size < most ? size : most;
    }
    return syscall(SYS_read, file, buffer, size);
}

ssize_t write(int file, const void *buffer, size_t size)
{
    ssize_t taken;
    if (file == 1) {
        size_t most = (size_t)told("WRITE_BLOCK", 1L << 30);
        long left = told("FAIL_WRITE", 1L << 62) - written;
        if (left <= 0 && size > 0) {
            errno = ENOSPC;
            return getenv("TAKE_NONE") ? 0 : -1;
        }
        size = size < most ? size : most;
        size = size < (size_t)left ? size : (size_t)left;
    }
    taken = syscall(SYS_write, file, buffer, size);
    if (file == 1 && taken > 0) {
        written += taken;
        if (getenv("WRITE_ENDS"))
            dprintf(9, "%ld\n", written);
    }
    return taken;
}

ssize_t __write(int file, const void *buffer, size_t size)
{
    return write(file, buffer, size);
}
