/* Counts the bytes that the process holds of the heap, the most since it wrote a line before, and those in blocks of
   64 KiB (the disks in memory), and prints them each time that it writes a line. */
#define _GNU_SOURCE
#include <dlfcn.h>
#include <malloc.h>
#include <stddef.h>
#include <stdio.h>
#include <stdlib.h>
#include <unistd.h>

static size_t held, most, blocks;

static void *taken(void *block) {
    if (block) { const size_t n = malloc_usable_size(block); held += n; if (n >= 65536 && n < 65600) blocks += n; }
    if (held > most) most = held;
    return block;
}

void *malloc(size_t size) {
    static void *(*real)(size_t);
    if (!real) real = dlsym(RTLD_NEXT, "malloc");
    return taken(real(size));
}

void *realloc(void *old, size_t size) {
    static void *(*real)(void *, size_t);
    if (!real) real = dlsym(RTLD_NEXT, "realloc");
    size_t was = old ? malloc_usable_size(old) : 0;
    void *block = real(old, size);
    if (block || size == 0) { held -= was; if (was >= 65536 && was < 65600) blocks -= was; }
    return taken(block);
}

void *aligned_alloc(size_t align, size_t size) {
    static void *(*real)(size_t, size_t);
    if (!real) real = dlsym(RTLD_NEXT, "aligned_alloc");
    return taken(real(align, size));
}

int posix_memalign(void **result, size_t align, size_t size) {
    static int (*real)(void **, size_t, size_t);
    if (!real) real = dlsym(RTLD_NEXT, "posix_memalign");
    int status = real(result, align, size);
    if (status == 0) taken(*result);
    return status;
}

void free(void *block) {
    static void (*real)(void *);
    if (!real) real = dlsym(RTLD_NEXT, "free");
    if (block) { const size_t n = malloc_usable_size(block); held -= n; if (n >= 65536 && n < 65600) blocks -= n; }
    real(block);
}

ssize_t write(int file, const void *bytes, size_t count) {
    static ssize_t (*real)(int, const void *, size_t);
    if (!real) real = dlsym(RTLD_NEXT, "write");
    if (file == 1) {
        char line[80];
        int length = snprintf(line, sizeof line, "held %zu most %zu blocks %zu ", held, most, blocks);
        if (length > 0) real(1, line, (size_t)length);
        most = held;
    }
    return real(file, bytes, count);
}
