// Refuses requests for memory in a program where memory.sh preloads this: the one whose number, counted from 1, the environment
// variable REFUSE has, and those behind it too if REFUSE_REST is set. At the end it writes the number of requests to the file that
// REFUSE_MADE names. It needs glibc, whose own calls have the names below.
#include <errno.h>
#include <stdio.h>
#include <stdlib.h>

void *__libc_malloc(size_t size);
void *__libc_calloc(size_t count, size_t size);
void *__libc_realloc(void *block, size_t size);
void *__libc_memalign(size_t align, size_t size);

static size_t number, made;
static int has_rest;

__attribute__((constructor)) static void begin(void) {
    const char *text = getenv("REFUSE");
    number = text ? strtoul(text, NULL, 10) : 0;
    has_rest = getenv("REFUSE_REST") != NULL;
    made = 0;
}

__attribute__((destructor)) static void end(void) {
    const char *name = getenv("REFUSE_MADE");
    size_t count = made;
    number = 0;
    FILE *file = name ? fopen(name, "w") : NULL;
    if (file) {
        fprintf(file, "%zu\n", count);
        fclose(file);
    }
}

static int is_refused(void) {
    made++;
    if (number == 0 || made < number || (made > number && !has_rest)) {
        return 0;
    }
    errno = ENOMEM;
    return 1;
}

void *malloc(size_t size) {
    return is_refused() ? NULL : __libc_malloc(size);
}

void *calloc(size_t count, size_t size) {
    return is_refused() ? NULL : __libc_calloc(count, size);
}

void *realloc(void *block, size_t size) {
    return is_refused() ? NULL : __libc_realloc(block, size);
}

void *aligned_alloc(size_t align, size_t size) {
    return is_refused() ? NULL : __libc_memalign(align, size);
}

int posix_memalign(void **out, size_t align, size_t size) {
    if (is_refused()) {
        return ENOMEM;
    }
    *out = __libc_memalign(align, size);
    return *out ? 0 : ENOMEM;
}
