/* Texts and blocks of memory: every alignment of both ends, overlapping moves, searches and comparisons. */
#include "library.h"

static unsigned char from[96], to[96], wanted[96];
static int failures;

static void expect(bool holds, const char *what)
{
    if (!holds) {
        printf("wrong: %s\n", what);
        failures++;
    }
}

static int sign(int value)
{
    return (value > 0) - (value < 0);
}

static uint32_t check_of(const unsigned char *bytes, size_t count)
{
    uint32_t check = 2166136261u;
    for (size_t at = 0; at < count; at++)
        check = (check ^ bytes[at]) * 16777619u;
    return check;
}

static void fill(unsigned char *bytes, unsigned first)
{
    for (size_t at = 0; at < sizeof from; at++)
        bytes[at] = (unsigned char)(first + 7 * at);
}

/* Copies so many bytes between all alignments, and sees that nothing beside them changes. */
static void copy_all(void)
{
    static const size_t counts[] = {0, 1, 2, 3, 4, 5, 7, 8, 15, 16, 33};
    for (size_t at = 0; at < sizeof counts / sizeof counts[0]; at++) {
        uint32_t check = 0;
        for (size_t place = 0; place < 16; place++) {
            size_t source = place % 4, target = place / 4 + 8;
            fill(from, 3);
            fill(to, 100);
            fill(wanted, 100);
            for (size_t byte = 0; byte < counts[at]; byte++)
                wanted[target + byte] = from[source + byte];
            expect(memcpy(to + target, from + source, counts[at]) == to + target, "what memcpy answers");
            expect(memcmp(to, wanted, sizeof to) == 0, "memcpy");
            check = 31 * check + check_of(to, sizeof to);
        }
        printf("memcpy of %2u: %08x\n", (unsigned)counts[at], (unsigned)check);
    }
}

static void move_all(void)
{
    for (int distance = -9; distance <= 9; distance += 3) {
        fill(to, 1);
        fill(from, 1);
        fill(wanted, 1);
        for (int byte = 0; byte < 40; byte++)
            wanted[20 + distance + byte] = from[20 + byte];
        memmove(to + 20 + distance, to + 20, 40);
        expect(memcmp(to, wanted, sizeof to) == 0, "memmove");
        printf("memmove by %2d: %08x\n", distance, (unsigned)check_of(to, sizeof to));
    }
}

static void set_all(void)
{
    for (size_t place = 0; place < 4; place++) {
        fill(to, 9);
        fill(wanted, 9);
        for (size_t byte = 0; byte < 21; byte++)
            wanted[place + byte] = 0xA5;
        memset(to + place, 0x1A5, 21);
        expect(memcmp(to, wanted, sizeof to) == 0, "memset");
        printf("memset at %u: %08x\n", (unsigned)place, (unsigned)check_of(to, sizeof to));
    }
}

static void compare_all(void)
{
    static const char *const texts[] = {"", "a", "ab", "abc", "abd", "b", "\xE9"};
    for (size_t one = 0; one < 7; one++) {
        printf("\"%s\" has %u:", one < 6 ? texts[one] : "?", (unsigned)strlen(texts[one]));
        for (size_t other = 0; other < 7; other++) {
            int whole = sign(strcmp(texts[one], texts[other])), two = sign(strncmp(texts[one], texts[other], 2));
            expect(whole == (one > other) - (one < other), "strcmp");
            printf(" %d/%d", whole, two);
        }
        printf("\n");
    }
    expect(memcmp("a\0b", "a\0c", 3) < 0 && memcmp("a\0b", "a\0c", 2) == 0, "memcmp");
}

static void print_place(const char *name, const char *text, const char *place)
{
    printf("%s: %d\n", name, place != NULL ? (int)(place - text) : -1);
}

static void search_all(void)
{
    const char *text = "a needle in a haystack, and a needle behind it";
    print_place("strchr n", text, strchr(text, 'n'));
    print_place("strchr z", text, strchr(text, 'z'));
    print_place("strchr 0", text, strchr(text, 0));
    print_place("strrchr n", text, strrchr(text, 'n'));
    print_place("strrchr a", text, strrchr(text, 'a'));
    print_place("strrchr z", text, strrchr(text, 'z'));
    print_place("strstr needle", text, strstr(text, "needle"));
    print_place("strstr needle b", text, strstr(text, "needle b"));
    print_place("strstr needles", text, strstr(text, "needles"));
    print_place("strstr nothing", text, strstr(text, ""));
    print_place("strstr it", text, strstr(text, "it"));
    print_place("memchr y", text, memchr(text, 'y', 46));
    print_place("memchr y in 10", text, memchr(text, 'y', 10));
}

static void join_all(void)
{
    char text[40];
    strcpy(text, "one");
    strcat(text, ", two");
    strcat(text, "");
    strcat(text, ", three");
    printf("%s (%u)\n", text, (unsigned)strlen(text));
    memset(text, '.', sizeof text);
    strncpy(text, "four", 8);
    printf("%s %d %d\n", text, text[7], text[8]);
    strncpy(text, "fifteen", 4);
    text[6] = 0;
    printf("%s\n", text);
}

int main(void)
{
    copy_all();
    move_all();
    set_all();
    compare_all();
    search_all();
    join_all();
    return failures != 0;
}
