/* Floating point of both widths, whose bits are printed: all pairs of edge values by all operations, a row of
   pseudo-random pairs, conversions, and three small computations. */
#include "library.h"

#define COUNT(list) (sizeof list / sizeof list[0])

/* Numbers that aren't known before the program runs, so that the compiler can't compute with them. */
static volatile uint64_t doubles[] = {
    0x0000000000000000, /* 0 */
    0x8000000000000000, /* -0 */
    0x3FF0000000000000, /* 1 */
    0x3FF0000000000001, /* the next above 1 */
    0xBFEFFFFFFFFFFFFF, /* the next below 1, negative */
    0x3FB999999999999A, /* 0.1 */
    0x0000000000000001, /* the least subnormal number */
    0x800FFFFFFFFFFFFF, /* the greatest one, negative */
    0x7FEFFFFFFFFFFFFF, /* the greatest number */
    0x4340000000000000, /* 2^53, from where not all odd numbers are there */
    0x7FF0000000000000, /* infinity */
    0x7FF8000000000000, /* no number */
};

static volatile uint32_t singles[] = {
    0x00000000, 0x80000000, 0x3F800000, 0x3F800001, 0xBF7FFFFF, 0x3DCCCCCD, 0x00000001,
    0x807FFFFF, 0x7F7FFFFF, 0x4B800000, 0x7F800000, 0x7FC00000,
};

static volatile int64_t integers[] = {
    0, 1, -1, 16777217, -2147483647, 9007199254740993, 9007199254740995, -1311768467463790320, INT64_MAX, INT64_MIN,
};

static double double_of(uint64_t bits)
{
    double number;
    memcpy(&number, &bits, sizeof number);
    return number;
}

static float single_of(uint32_t bits)
{
    float number;
    memcpy(&number, &bits, sizeof number);
    return number;
}

/* The bits of a number. What isn't one has many patterns, and which one comes is left open: here it is always this. */
static uint64_t bits_of_double(double number)
{
    uint64_t bits;
    memcpy(&bits, &number, sizeof bits);
    return number == number ? bits : 0x7FF8000000000000;
}

static uint32_t bits_of_single(float number)
{
    uint32_t bits;
    memcpy(&bits, &number, sizeof bits);
    return number == number ? bits : 0x7FC00000;
}

static void print_double(const char *name, double number)
{
    printf("%s%016llx", name, (unsigned long long)bits_of_double(number));
}

static void print_single(const char *name, float number)
{
    printf("%s%08x", name, (unsigned)bits_of_single(number));
}

static void print_relations(bool below, bool equal, bool above)
{
    printf(" %s\n", below ? "<" : equal ? "=" : above ? ">" : "?");
}

/* y, then x + y, x - y, x * y and x / y, and how x compares with y. */
static void pair_of_doubles(double x, double y)
{
    print_double("", y);
    print_double(": ", x + y);
    print_double(" ", x - y);
    print_double(" ", x * y);
    print_double(" ", x / y);
    print_relations(x < y && !(x >= y), x == y && x <= y && !(x != y), x > y && !(x <= y));
}

static void pair_of_singles(float x, float y)
{
    print_single("", y);
    print_single(": ", x + y);
    print_single(" ", x - y);
    print_single(" ", x * y);
    print_single(" ", x / y);
    print_relations(x < y && !(x >= y), x == y && x >= y && !(x != y), x > y && !(x <= y));
}

static void all_pairs(void)
{
    for (size_t one = 0; one < COUNT(doubles); one++) {
        print_double("", double_of(doubles[one]));
        printf(" and\n");
        for (size_t other = 0; other < COUNT(doubles); other++)
            pair_of_doubles(double_of(doubles[one]), double_of(doubles[other]));
    }
    for (size_t one = 0; one < COUNT(singles); one++) {
        print_single("", single_of(singles[one]));
        printf(" and\n");
        for (size_t other = 0; other < COUNT(singles); other++)
            pair_of_singles(single_of(singles[one]), single_of(singles[other]));
    }
}

/* Pairs of nearby exponents, where sums and differences round most. */
static void random_pairs(int count)
{
    uint64_t state = 88172645463325252u, check = 0;
    uint32_t single_check = 0;
    for (int round = 0; round < count; round++) {
        uint64_t bits[2];
        for (int at = 0; at < 2; at++) {
            state ^= state << 13;
            state ^= state >> 7;
            state ^= state << 17;
            bits[at] = state;
        }
        uint64_t low = bits[0] % 60 << 52;
        double x = double_of((bits[0] & 0x800FFFFFFFFFFFFF) + 0x3E00000000000000 + low), y = double_of(bits[1]);
        double z = double_of((bits[1] & 0x800FFFFFFFFFFFFF) + 0x3E10000000000000 + low);
        check = 31 * check + bits_of_double(x + z);
        check = 31 * check + bits_of_double(x - y);
        check = 31 * check + bits_of_double(x * y);
        check = 31 * check + bits_of_double(y / z);
        float a = single_of((uint32_t)bits[0]), b = single_of((uint32_t)bits[1]), c = (float)x;
        single_check = 31 * single_check + bits_of_single(a + b);
        single_check = 31 * single_check + bits_of_single(c - (float)z);
        single_check = 31 * single_check + bits_of_single(a * c);
        single_check = 31 * single_check + bits_of_single(b / c);
    }
    printf("%d more: %016llx %08x\n", count, (unsigned long long)check, (unsigned)single_check);
}

static void conversions(void)
{
    for (size_t at = 0; at < COUNT(integers); at++) {
        int64_t whole = integers[at];
        printf("%lld:", (long long)whole);
        print_double(" ", (double)whole);
        print_single(" ", (float)whole);
        print_double(" ", (double)(uint64_t)whole);
        print_single(" ", (float)(uint64_t)whole);
        print_double(" ", (double)(int32_t)whole);
        print_single(" ", (float)(uint32_t)whole);
        printf("\n");
    }
    for (size_t at = 0; at < COUNT(doubles); at++) {
        double number = double_of(doubles[at]);
        print_double("", number);
        print_single(": ", (float)number);
        if (number > -2147483649.0 && number < 2147483648.0)
            printf(" %d", (int)number);
        if (number > -1.0 && number < 9.2e18)
            printf(" %llu %lld", (unsigned long long)number, (long long)-number);
        printf("\n");
    }
    for (size_t at = 0; at < COUNT(singles); at++) {
        print_single("", single_of(singles[at]));
        print_double(": ", single_of(singles[at]));
        printf("\n");
    }
}

/* A square root by Newton's steps, until it stays. */
static double root(double number)
{
    double at = number, next = (at + 1) / 2;
    for (int step = 0; step < 60 && next != at; step++) {
        at = next;
        next = (at + number / at) / 2;
    }
    return at;
}

static void computations(void)
{
    double harmonic = 0, pi = 0, power = 1;
    for (int term = 1; term <= 50; term++)
        harmonic += 1.0 / term;
    for (int term = 0; term < 14; term++, power /= 16)
        pi += power * (4.0 / (8 * term + 1) - 2.0 / (8 * term + 4) - 1.0 / (8 * term + 5) - 1.0 / (8 * term + 6));
    print_double("the sum of 1/1 to 1/50: ", harmonic);
    print_double("\nthe root of 2: ", root((double)integers[1] + 1));
    print_double("\npi: ", pi);
    printf(", pi * 10^15: %lld\n", (long long)(pi * 1e15));
}

int main(void)
{
    all_pairs();
    random_pairs(50);
    conversions();
    computations();
    return double_of(doubles[5]) * 3 == double_of(0x3FD3333333333334) ? 0 : 1;
}
