/* A library to be loaded before a program: of the blocks of memory that the program asks for, the one whose number stands in
 * REFUSE_AT, from 1, is refused. How many were asked for is written into the file that REFUSE_COUNT names. */
#define _GNU_SOURCE
#include <dlfcn.h>
#include <errno.h>
#include <stdio.h>
#include <stdlib.h>

static long asked, refused_at;
static int counting;

__attribute__((constructor)) static void begin(void) {
    const char *at = getenv("REFUSE_AT");
    refused_at = at ? atol(at) : 0;
    counting = 1;
}

__attribute__((destructor)) static void end(void) {
    const char *name = getenv("REFUSE_COUNT");
    counting = 0;
    FILE *file = name ? fopen(name, "w") : NULL;
    if (file) {
        fprintf(file, "%ld\n", asked);
        fclose(file);
    }
}

static int refused(void) { return counting && ++asked == refused_at; }

void *malloc(size_t size) {
    static void *(*own)(size_t);
    if (!own) own = dlsym(RTLD_NEXT, "malloc");
    return refused() ? NULL : own(size);
}

void *realloc(void *old, size_t size) {
    static void *(*own)(void *, size_t);
    if (!own) own = dlsym(RTLD_NEXT, "realloc");
    return refused() ? NULL : own(old, size);
}

void *aligned_alloc(size_t alignment, size_t size) {
    static void *(*own)(size_t, size_t);
    if (!own) own = dlsym(RTLD_NEXT, "aligned_alloc");
    return refused() ? NULL : own(alignment, size);
}

int posix_memalign(void **place, size_t alignment, size_t size) {
    static int (*own)(void **, size_t, size_t);
    if (!own) own = dlsym(RTLD_NEXT, "posix_memalign");
    return refused() ? ENOMEM : own(place, alignment, size);
}
