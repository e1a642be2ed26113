/* Stands before the C library and refuses one request: the one for memory of the number in REFUSE, from 1 on, or the one for a
   thread of the number in REFUSE_THREAD. If REFUSE_OF has the number of a thread, only its requests for memory count; the first
   thread is 0, and the others are numbered as they are made. If COUNT names a file, the numbers of requests for memory and for threads
   are written to it at the end, and then the number of requests for memory of each thread. For `check`. */
#define _GNU_SOURCE
#include <dlfcn.h>
#include <errno.h>
#include <pthread.h>
#include <stdio.h>
#include <stdlib.h>
#include <sys/syscall.h>
#include <unistd.h>

enum { MOST = 64 };

static long asked, threads, asked_by[MOST];
static __thread long me __attribute__((tls_model("initial-exec")));

static int is_number(const char *name, long now) {
    const char *number = getenv(name);
    return number && now == atol(number);
}

static int memory_refused(void) {
    long by_all = __atomic_add_fetch(&asked, 1, __ATOMIC_RELAXED), by_me = ++asked_by[me];
    if (getenv("REFUSE_OF"))
        return is_number("REFUSE_OF", me) && is_number("REFUSE", by_me);
    return is_number("REFUSE", by_all);
}

void *malloc(size_t size) {
    static void *(*next)(size_t);
    if (!next) *(void **)&next = dlsym(RTLD_NEXT, "malloc");
    return memory_refused() ? NULL : next(size);
}

void *realloc(void *block, size_t size) {
    static void *(*next)(void *, size_t);
    if (!next) *(void **)&next = dlsym(RTLD_NEXT, "realloc");
    return memory_refused() ? NULL : next(block, size);
}

static struct task {
    void *(*begin)(void *), *with;
} tasks[MOST];

static void *begin(void *number) {
    me = (long)number;
    return tasks[me].begin(tasks[me].with);
}

int pthread_create(pthread_t *thread, const pthread_attr_t *how, void *(*task)(void *), void *with) {
    static int (*next)(pthread_t *, const pthread_attr_t *, void *(*)(void *), void *);
    long number = __atomic_add_fetch(&threads, 1, __ATOMIC_RELAXED);
    if (!next) *(void **)&next = dlsym(RTLD_NEXT, "pthread_create");
    if (is_number("REFUSE_THREAD", number) || number >= MOST)
        return EAGAIN;
    tasks[number] = (struct task){task, with};
    return next(thread, how, begin, (void *)number);
}

static void tell(void) {
    const char *name = getenv("COUNT");
    long memory = asked, made = threads;
    FILE *file = name ? fopen(name, "w") : NULL;
    if (file) {
        fprintf(file, "%ld %ld", memory, made);
        for (long thread = 0; thread <= made && thread < MOST; thread++)
            fprintf(file, " %ld", asked_by[thread]);
        fprintf(file, "\n");
        fclose(file);
    }
}

/* A program of threads ends so, and no destructor is called. */
void _exit(int status) {
    tell();
    syscall(SYS_exit_group, status);
    __builtin_unreachable();
}
