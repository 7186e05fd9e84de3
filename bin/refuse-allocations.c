/* Loaded before a program's own libraries (LD_PRELOAD), it counts the program's allocations and refuses some by number.
   The file that REFUSED names has three numbers of 64 bits: how many calls came, and the first and the last that is refused.
   A start of a thread counts as an allocation, since its stack is one. bin/refuse-allocations makes the file. */
#define _GNU_SOURCE
#include <dlfcn.h>
#include <errno.h>
#include <fcntl.h>
#include <pthread.h>
#include <stdatomic.h>
#include <stdlib.h>
#include <sys/mman.h>
#include <unistd.h>

extern void *__libc_malloc(size_t size), *__libc_calloc(size_t count, size_t size), *__libc_realloc(void *old, size_t size);

static struct {
    atomic_ulong calls;
    unsigned long first, last;
} *said;

__attribute__((constructor)) static void begin(void) {
    const char *name = getenv("REFUSED");
    int file = name ? open(name, O_RDWR | O_CLOEXEC) : -1;
    void *place = file < 0 ? MAP_FAILED : mmap(NULL, sizeof *said, PROT_READ | PROT_WRITE, MAP_SHARED, file, 0);
    if (place == MAP_FAILED)
        _exit(125);
    close(file);
    said = place;
}

static int is_refused(void) {
    if (!said)
        return 0;
    unsigned long call = atomic_fetch_add(&said->calls, 1) + 1;
    if (call < said->first || call > said->last)
        return 0;
    errno = ENOMEM;
    return 1;
}

void *malloc(size_t size) { return is_refused() ? NULL : __libc_malloc(size); }

void *calloc(size_t count, size_t size) { return is_refused() ? NULL : __libc_calloc(count, size); }

void *realloc(void *old, size_t size) { return size && is_refused() ? NULL : __libc_realloc(old, size); }

int pthread_create(pthread_t *thread, const pthread_attr_t *how, void *(*run)(void *), void *with) {
    int (*start)(pthread_t *, const pthread_attr_t *, void *(*)(void *), void *) = dlsym(RTLD_NEXT, "pthread_create");
    return is_refused() ? EAGAIN : start(thread, how, run, with);
}
