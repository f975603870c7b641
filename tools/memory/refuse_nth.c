/* Refuses the allocation with the number in REFUSE, counted from 1, and those behind it as long as AFTER is set.
   Says at exit in COUNT's file how many were asked for. Loaded before the C library (LD_PRELOAD). */
#define _GNU_SOURCE
#include <dlfcn.h>
#include <errno.h>
#include <stdio.h>
#include <stdlib.h>

static unsigned long asked;

static int refused(void) {
    const char *number = getenv("REFUSE");
    unsigned long wanted = number ? strtoul(number, NULL, 10) : 0;
    asked += 1;
    return asked == wanted || (getenv("AFTER") && wanted && asked > wanted);
}

void *malloc(size_t size) {
    static void *(*real)(size_t);
    if (!real)
        real = (void *(*)(size_t))dlsym(RTLD_NEXT, "malloc");
    if (refused()) {
        errno = ENOMEM;
        return NULL;
    }
    return real(size);
}

void *realloc(void *old, size_t size) {
    static void *(*real)(void *, size_t);
    if (!real)
        real = (void *(*)(void *, size_t))dlsym(RTLD_NEXT, "realloc");
    if (refused()) {
        errno = ENOMEM;
        return NULL;
    }
    return real(old, size);
}

__attribute__((destructor)) static void tell(void) {
    const char *name = getenv("COUNT");
    FILE *file = name ? fopen(name, "w") : NULL;
    if (file) {
        fprintf(file, "%lu\n", asked);
        fclose(file);
    }
}
