/* Stands before the C library and lets standard input or output fail. For `tables`.

   FAIL_READ=N  the Nth read of standard input fails
   ROOM=N       standard output takes N bytes, and then fails
   PIECE=N      each read and each write moves at most N bytes
   ERROR=N      what fails has the error of this number, and EIO without it; for 0 it moves no byte, and there is no error */
#define _GNU_SOURCE
#include <dlfcn.h>
#include <errno.h>
#include <stdlib.h>
#include <unistd.h>

static long number(const char *name, long otherwise) {
    const char *text = getenv(name);
    return text ? atol(text) : otherwise;
}

/* What a call returns that fails. */
static ssize_t failed(void) {
    errno = (int)number("ERROR", EIO);
    return errno ? -1 : 0;
}

ssize_t read(int file, void *to, size_t count) {
    static ssize_t (*next)(int, void *, size_t);
    static long reads;
    if (!next)
        next = (ssize_t (*)(int, void *, size_t))dlsym(RTLD_NEXT, "read");
    if (file != 0)
        return next(file, to, count);
    if (++reads == number("FAIL_READ", 0))
        return failed();
    size_t piece = (size_t)number("PIECE", 1L << 30);
    return next(file, to, count < piece ? count : piece);
}

ssize_t write(int file, const void *from, size_t count) {
    static ssize_t (*next)(int, const void *, size_t);
    static size_t taken;
    if (!next)
        next = (ssize_t (*)(int, const void *, size_t))dlsym(RTLD_NEXT, "write");
    if (file != 1)
        return next(file, from, count);
    size_t room = (size_t)number("ROOM", 1L << 30), piece = (size_t)number("PIECE", 1L << 30);
    if (taken >= room)
        return failed();
    size_t most = room - taken < piece ? room - taken : piece;
    ssize_t moved = next(file, from, count < most ? count : most);
    if (moved > 0)
        taken += (size_t)moved;
    return moved;
}
