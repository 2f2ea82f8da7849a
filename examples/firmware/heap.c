/* The C library, newlib or picolibc: malloc, realloc and free, qsort, strtol, and printf of floating-point numbers. */
#include <stdint.h>
#include <stdio.h>
#include <stdlib.h>
#include <string.h>

struct entry {
    struct entry *next;
    long key;
    char *name;
};

/* Puts an entry ahead of a list; a name is a copy with its key behind it. */
static struct entry *with(struct entry *list, const char *name, long key)
{
    struct entry *entry = malloc(sizeof *entry);
    entry->name = malloc(strlen(name) + 12);
    sprintf(entry->name, "%s:%ld", name, key);
    entry->key = key;
    entry->next = list;
    return entry;
}

static void drop(struct entry *list)
{
    while (list != NULL) {
        struct entry *next = list->next;
        free(list->name);
        free(list);
        list = next;
    }
}

static int by_key(const void *one, const void *other)
{
    const struct entry *const *first = one, *const *second = other;
    return ((*first)->key > (*second)->key) - ((*first)->key < (*second)->key);
}

/* Prints a list by key, through an array that grows by one. */
static size_t print_sorted(const struct entry *list)
{
    const struct entry **entries = NULL;
    size_t count = 0;
    for (; list != NULL; list = list->next) {
        entries = realloc(entries, (count + 1) * sizeof *entries);
        entries[count++] = list;
    }
    qsort(entries, count, sizeof *entries, by_key);
    for (size_t at = 0; at < count; at++)
        printf("%2u %-10s%c", (unsigned)at, entries[at]->name, at + 1 < count ? ' ' : '\n');
    free(entries);
    return count;
}

/* More than the heap has, so malloc has to say no; and after that as before. Without volatile a compiler may answer in
   its place. */
static int is_bounded(void)
{
    void *volatile much = malloc(SIZE_MAX / 2), *volatile little = malloc(100);
    int bounded = much == NULL && little != NULL;
    free(much);
    free(little);
    return bounded;
}

int main(void)
{
    static const char *const words[] = {"40", "-7", "0x1F", "12", "077"};
    struct entry *list = NULL;
    size_t count = 0;
    for (int round = 0; round < 50; round++) {
        drop(list);
        list = NULL;
        for (size_t at = 0; at < sizeof words / sizeof words[0]; at++)
            list = with(list, words[at], strtol(words[at], NULL, 0) + round);
    }
    count = print_sorted(list);
    drop(list);
    printf("%.3f %e %g\n", 355.0 / 113, 6.02214076e23, 0.1);
    printf("%u entries, %s\n", (unsigned)count, is_bounded() ? "bounded" : "not bounded");
    return count != 5;
}
