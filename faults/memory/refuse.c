/* Refuses requests for memory, and threads, of the program that it is loaded into by LD_PRELOAD. Requests count from 1, in
   the order in which they come, those of the C library too. REFUSE_AT is the number of the one that is refused; with
   REFUSE_ON set, all after it are refused too. REFUSE_COUNT names the file that gets the number of all requests. */
#define _GNU_SOURCE
#include <dlfcn.h>
#include <errno.h>
#include <pthread.h>
#include <stdatomic.h>
#include <stdio.h>
#include <stdlib.h>
#include <sys/syscall.h>
#include <unistd.h>

extern void *__libc_malloc(size_t), *__libc_calloc(size_t, size_t), *__libc_realloc(void *, size_t);

static atomic_long asked;
static long at = -1;
static int on;

static int refused(void) {
    long n = atomic_fetch_add(&asked, 1) + 1;
    if (at < 0) {
        const char *word = getenv("REFUSE_AT");
        on = getenv("REFUSE_ON") != NULL;
        at = word ? atol(word) : 0;
    }
    if (at == 0 || (on ? n < at : n != at))
        return 0;
    errno = ENOMEM;
    return 1;
}

void *malloc(size_t n) { return refused() ? NULL : __libc_malloc(n); }
void *calloc(size_t n, size_t size) { return refused() ? NULL : __libc_calloc(n, size); }
void *realloc(void *p, size_t n) { return refused() ? NULL : __libc_realloc(p, n); }

int pthread_create(pthread_t *t, const pthread_attr_t *a, void *(*f)(void *), void *x) {
    int (*next)(pthread_t *, const pthread_attr_t *, void *(*)(void *), void *) = dlsym(RTLD_NEXT, "pthread_create");
    return refused() ? EAGAIN : next(t, a, f, x);
}

/* A test binary returns from main; the program ends by _exit, which runs no destructor. */
__attribute__((destructor)) static void tell(void) {
    long all = atomic_load(&asked);
    const char *name = getenv("REFUSE_COUNT");
    at = 0;
    FILE *file = name ? fopen(name, "w") : NULL;
    if (file) {
        fprintf(file, "%ld\n", all);
        fclose(file);
    }
}

void _exit(int status) {
    tell();
    syscall(SYS_exit_group, status);
    __builtin_unreachable();
}
