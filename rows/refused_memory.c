// Stands before the C library: the call for memory whose number REFUSED has gets none, and with REFUSED_ON=1 so do all after it. How many
// calls there were is written to the file that COUNTED names.
#include <stddef.h>
#include <stdio.h>
#include <stdlib.h>

extern void *__libc_malloc(size_t size);
extern void *__libc_realloc(void *old, size_t size);

static long number = -1, calls;
static int on;

__attribute__((constructor)) static void read_number(void) {
    const char *text = getenv("REFUSED");
    number = text ? atol(text) : 0;
    on = getenv("REFUSED_ON") != NULL;
    calls = 0;
}

__attribute__((destructor)) static void write_calls(void) {
    const char *path = getenv("COUNTED");
    long counted = calls;
    FILE *file;
    number = 0;
    file = path ? fopen(path, "w") : NULL;
    if (file) {
        fprintf(file, "%ld", counted);
        fclose(file);
    }
}

static int is_refused(void) {
    calls++;
    return number > 0 && (calls == number || (on && calls > number));
}

void *malloc(size_t size) { return is_refused() ? NULL : __libc_malloc(size); }

void *realloc(void *old, size_t size) { return is_refused() ? NULL : __libc_realloc(old, size); }
