/* Refuses one allocation of a program, as glibc makes them: that whose number stands in REFUSE, counted from 1 as the
 * program begins. With ROUND it refuses one of each round, which ends with so many lines on standard output: they are
 * counted anew then, and the number refused is by STEP higher. At the end of the program two numbers are written to the
 * descriptor 9: how many allocations there were since the last round ended, and how many were refused in all.
 *
 * With REFUSE_BIND the system has no memory for the name of a socket, with REFUSE_THREAD it does not start the thread of
 * that number. */
#define _GNU_SOURCE
#include <dlfcn.h>
#include <errno.h>
#include <pthread.h>
#include <stddef.h>
#include <stdio.h>
#include <stdlib.h>
#include <sys/syscall.h>
#include <unistd.h>

extern void *__libc_malloc(size_t size);
extern void *__libc_calloc(size_t count, size_t size);
extern void *__libc_realloc(void *old, size_t size);
extern void *__libc_memalign(size_t align, size_t size);

/* How many were wanted in this round, and how many were refused in all. */
static long made, refusals;

/* Which is refused in this round, how much higher the next is, the lines of a round, and those that are left of it. */
static long refused = -1, step, lines, left;

static long number_in(const char *name) {
    const char *text = getenv(name);
    return text ? atol(text) : 0;
}

/* Whether the next allocation is refused. */
static int is_refused(void) {
    if (refused < 0) {
        refused = number_in("REFUSE");
        step = number_in("STEP");
        left = lines = number_in("ROUND");
    }
    if (++made != refused)
        return 0;
    refusals++;
    return 1;
}

void *malloc(size_t size) { return is_refused() ? NULL : __libc_malloc(size); }

void *calloc(size_t count, size_t size) { return is_refused() ? NULL : __libc_calloc(count, size); }

void *realloc(void *old, size_t size) { return is_refused() ? NULL : __libc_realloc(old, size); }

void *aligned_alloc(size_t align, size_t size) { return is_refused() ? NULL : __libc_memalign(align, size); }

int posix_memalign(void **block, size_t align, size_t size) {
    *block = is_refused() ? NULL : __libc_memalign(align, size);
    return *block ? 0 : ENOMEM;
}

ssize_t write(int to, const void *bytes, size_t length) {
    ssize_t written = syscall(SYS_write, to, bytes, length);
    int is_line = to == 1 && written > 0 && ((const char *)bytes)[written - 1] == '\n';
    if (is_line && lines && --left == 0) {
        left = lines;
        made = 0;
        refused += step;
    }
    return written;
}

int bind(int socket, const void *name, unsigned length) {
    if (!getenv("REFUSE_BIND"))
        return (int)syscall(SYS_bind, socket, name, length);
    errno = ENOMEM;
    return -1;
}

int pthread_create(pthread_t *thread, const pthread_attr_t *attributes, void *(*start)(void *), void *given) {
    static int (*create)(pthread_t *, const pthread_attr_t *, void *(*)(void *), void *);
    static long threads;
    if (++threads == number_in("REFUSE_THREAD"))
        return EAGAIN;
    if (!create)
        *(void **)&create = dlsym(RTLD_NEXT, "pthread_create");
    return create(thread, attributes, start, given);
}

__attribute__((destructor)) static void tell(void) {
    dprintf(9, "%ld %ld\n", made, refusals);
}

/* A program that may start threads ends so, and then no destructor runs. */
void _exit(int status) {
    tell();
    syscall(SYS_exit_group, status);
    __builtin_unreachable();
}
