/* Stands before the C library and refuses requests for memory of one part of a program, which says by the length of a read of standard
   input where that part begins: the nth request after a read of n + 1 bytes is refused, and each one after a read of 256 bytes. A read of
   one byte ends it, and gives 1 if a request was refused, and else 0. Other reads give 'a'. For `check`, of a program of one thread. */
#define _GNU_SOURCE
#include <dlfcn.h>
#include <stdlib.h>
#include <unistd.h>

enum { EACH = 256 };

static long left; /* requests up to the refused one; 0 if none is to be refused, and below 0 if each is */
static int hit;

static int refused(void) {
    if (left < 0)
        return hit = 1;
    if (left > 0 && --left == 0)
        return hit = 1;
    return 0;
}

void *malloc(size_t size) {
    static void *(*next)(size_t);
    if (!next) *(void **)&next = dlsym(RTLD_NEXT, "malloc");
    return refused() ? NULL : next(size);
}

void *realloc(void *block, size_t size) {
    static void *(*next)(void *, size_t);
    if (!next) *(void **)&next = dlsym(RTLD_NEXT, "realloc");
    return refused() ? NULL : next(block, size);
}

ssize_t read(int file, void *to, size_t count) {
    static ssize_t (*next)(int, void *, size_t);
    if (!next) *(void **)&next = dlsym(RTLD_NEXT, "read");
    if (file != 0 || count == 0)
        return next(file, to, count);
    if (count == 1) {
        *(char *)to = hit;
        left = 0;
    } else {
        *(char *)to = 'a';
        left = count == EACH ? -1 : (long)count - 1;
    }
    hit = 0;
    return 1;
}
