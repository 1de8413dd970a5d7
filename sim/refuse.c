/* Stands before the C library (LD_PRELOAD): the call of malloc or realloc with the number REFUSE_AT, from 1, is refused.
   At the end the number of calls is written into the file REFUSE_COUNT, where that is named. */
#include <stdio.h>
#include <stdlib.h>

extern void *__libc_malloc(size_t size);
extern void *__libc_realloc(void *old, size_t size);

static unsigned long calls, refused;

__attribute__((constructor)) static void begin(void) {
    const char *at = getenv("REFUSE_AT");
    refused = at ? strtoul(at, NULL, 10) : 0;
    calls = 0;
}

__attribute__((destructor)) static void end(void) {
    const char *path = getenv("REFUSE_COUNT");
    unsigned long counted = calls;
    FILE *file = path ? fopen(path, "w") : NULL;
    if (file) {
        fprintf(file, "%lu\n", counted);
        fclose(file);
    }
}

void *malloc(size_t size) { return ++calls == refused ? NULL : __libc_malloc(size); }

void *realloc(void *old, size_t size) { return ++calls == refused ? NULL : __libc_realloc(old, size); }
