/* The conversions of printf, each with the flags that go with it. */
#include "library.h"
#include <limits.h>

static int counted;

static void print_integers(void)
{
    printf("[%d] [%d] [%d] [%i]\n", 0, INT_MAX, INT_MIN, -1);
    printf("[%u] [%u] [%x] [%X] [%o]\n", 0u, UINT_MAX, 0xDEADBEEFu, 0xDEADBEEFu, 0755u);
    printf("[%5d] [%-5d] [%05d] [%+d] [% d]\n", 42, 42, 42, 42, 42);
    printf("[%5d] [%-5d] [%05d] [%+d] [% d]\n", -42, -42, -42, -42, -42);
    printf("[%3d] [%-3d] [%03d]\n", 123456, 123456, -123456);
    printf("[%.4d] [%8.4d] [%-8.4d]\n", 42, 42, -42);
    printf("[%.0d] [%.d] [%5.0d]\n", 0, 1, 0);
    printf("[%08x] [%#x] [%#X] [%#010x] [%#x]\n", 0xBEEFu, 0xBEEFu, 0xBEEFu, 0xBEEFu, 0u);
    printf("[%*d] [%-*d] [%*d] [%.*d]\n", 6, 7, 6, 7, -6, 7, 3, 7);
}

static void print_long_integers(void)
{
    printf("[%ld] [%lu] [%lx]\n", -2147483647L, 4294967295UL, 0xCAFEBABEUL);
    printf("[%lld] [%lld] [%llu]\n", LLONG_MAX, LLONG_MIN, ULLONG_MAX);
    printf("[%llx] [%#llX] [%024llo]\n", 0x0123456789ABCDEFULL, ULLONG_MAX, ULLONG_MAX);
    printf("[%22lld] [%-22lld] [%022lld]\n", -1234567890123LL, -1234567890123LL, -1234567890123LL);
}

static void print_texts(void)
{
    const char *word = "marm";
    printf("[%s] [%s] [%8s] [%-8s] [%2s]\n", word, "", word, word, word);
    printf("[%.2s] [%.9s] [%.0s] [%8.3s] [%-8.3s] [%.*s]\n", word, word, word, word, word, 1, word);
    printf("[%c] [%3c] [%-3c] [%c%c%c]\n", 'a', 'b', 'c', 'x', 'y', 'z');
    printf("[%%] [%d%%] [%s%%%c]\n", 100, "x", '%');
    printf("tab\tand a \"quote\", a \\ and two bytes above 127: \xC3\xA9\n");
}

static void print_powers(void)
{
    unsigned long long power = 1;
    for (int exponent = 0; exponent <= 19; exponent++, power *= 10)
        counted += printf("10^%-2d = %20llu = %#18llx\n", exponent, power, power);
}

int main(void)
{
    counted += printf("Hello from a Cortex-M3.\n");
    print_integers();
    print_long_integers();
    print_texts();
    print_powers();
    putchar('A');
    putchar('\n');
    printf("%d bytes were counted\n", counted);
    return counted != 24 + 20 * 50;
}
