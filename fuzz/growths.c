// Loaded ahead of the C library (LD_PRELOAD): refuses one of a program's calls for memory, as the C library does when
// there is none. REFUSE has the number of the call, from 1; the others are made. When the program ends, the number of
// its calls goes to the file that GROWTHS names.
#include <stdio.h>
#include <stdlib.h>

extern void *__libc_malloc(size_t bytes);
extern void *__libc_calloc(size_t count, size_t bytes);
extern void *__libc_realloc(void *block, size_t bytes);

static unsigned long calls;
static unsigned long refused = -1UL;

// Whether the call that is made now is the one that is refused.
static int is_refused(void)
{
    if (refused == -1UL) {
        char const *number = getenv("REFUSE");
        refused = number ? strtoul(number, NULL, 10) : 0;
    }
    return ++calls == refused;
}

void *malloc(size_t bytes)
{
    return is_refused() ? NULL : __libc_malloc(bytes);
}

void *calloc(size_t count, size_t bytes)
{
    return is_refused() ? NULL : __libc_calloc(count, bytes);
}

void *realloc(void *block, size_t bytes)
{
    return is_refused() ? NULL : __libc_realloc(block, bytes);
}

__attribute__((destructor)) static void write_calls(void)
{
    unsigned long made = calls;
    char const *path = getenv("GROWTHS");
    FILE *file = path ? fopen(path, "w") : NULL;
    if (file) {
        fprintf(file, "%lu\n", made);
        fclose(file);
    }
}
