/* Put before a program's own allocator (LD_PRELOAD), this refuses allocations, or a thread, and counts both.
 *
 * REFUSE_AT=N     refuses the Nth allocation, counted from 1
 * REFUSE_FROM=N   refuses the Nth and all after it
 * REFUSE_THREAD=N refuses to start the Nth thread
 * REFUSE_COUNT=F  at the end, writes the number of allocations and of threads that were asked for into the file F
 */
#define _GNU_SOURCE
#include <dlfcn.h>
#include <errno.h>
#include <fcntl.h>
#include <pthread.h>
#include <stdatomic.h>
#include <stdio.h>
#include <stdlib.h>
#include <sys/syscall.h>
#include <unistd.h>

extern void *__libc_malloc(size_t size);
extern void *__libc_calloc(size_t count, size_t size);
extern void *__libc_realloc(void *old, size_t size);

static atomic_long allocations, threads;
static long at, from, thread_at;

static long number(const char *name) {
    const char *text = getenv(name);
    return text ? atol(text) : 0;
}

/* Counting begins with the program: what is allocated before that isn't its own. */
__attribute__((constructor)) static void begin(void) {
    at = number("REFUSE_AT");
    from = number("REFUSE_FROM");
    thread_at = number("REFUSE_THREAD");
    atomic_store(&allocations, 0);
}

static void tell(void) {
    const char *path = getenv("REFUSE_COUNT");
    int file = path ? open(path, O_WRONLY | O_CREAT | O_TRUNC, 0600) : -1;
    if (file >= 0) {
        dprintf(file, "%ld %ld\n", atomic_load(&allocations), atomic_load(&threads));
        close(file);
    }
}

__attribute__((destructor)) static void end(void) { tell(); }

/* A program that ends by itself runs no destructor. */
void _exit(int status) {
    tell();
    syscall(SYS_exit_group, status);
    __builtin_unreachable();
}

static int is_refused(void) {
    long number = atomic_fetch_add(&allocations, 1) + 1;
    int refused = number == at || (from && number >= from);
    if (refused)
        errno = ENOMEM;
    return refused;
}

void *malloc(size_t size) { return is_refused() ? NULL : __libc_malloc(size); }

void *calloc(size_t count, size_t size) { return is_refused() ? NULL : __libc_calloc(count, size); }

void *realloc(void *old, size_t size) { return is_refused() ? NULL : __libc_realloc(old, size); }

int pthread_create(pthread_t *thread, const pthread_attr_t *how, void *(*start)(void *), void *given) {
    static int (*real)(pthread_t *, const pthread_attr_t *, void *(*)(void *), void *);
    if (atomic_fetch_add(&threads, 1) + 1 == thread_at)
        return EAGAIN;
    if (!real)
        real = (int (*)(pthread_t *, const pthread_attr_t *, void *(*)(void *), void *))dlsym(RTLD_NEXT, "pthread_create");
    return real(thread, how, start, given);
}
