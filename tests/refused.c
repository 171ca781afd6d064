/* Loaded before a program (LD_PRELOAD): refuses its allocation number REFUSED, counted from 1, and then makes the file
   REFUSED_MARK. Allocations by calloc, which the C library alone makes, pass. */
#define _GNU_SOURCE
#include <dlfcn.h>
#include <errno.h>
#include <fcntl.h>
#include <stdatomic.h>
#include <stdlib.h>
#include <unistd.h>

static atomic_long asked;

static int refuses(void) {
    const char *number = getenv("REFUSED"), *mark = getenv("REFUSED_MARK");
    if (atomic_fetch_add(&asked, 1) + 1 != (number ? atol(number) : 0)) return 0;
    int file = mark ? open(mark, O_CREAT | O_WRONLY, 0600) : -1;
    if (file >= 0) close(file);
    errno = ENOMEM;
    return 1;
}

void *malloc(size_t size) {
    static void *(*real)(size_t);
    if (!real) real = (void *(*)(size_t))dlsym(RTLD_NEXT, "malloc");
    return refuses() ? NULL : real(size);
}

void *realloc(void *old, size_t size) {
    static void *(*real)(void *, size_t);
    if (!real) real = (void *(*)(void *, size_t))dlsym(RTLD_NEXT, "realloc");
    return refuses() ? NULL : real(old, size);
}
