/* 64-bit division and remainder, signed and unsigned: all pairs of edge values, then a row of pseudo-random ones. */
#include "library.h"

static volatile uint64_t edges[] = {
    0, 1, 3, 10, 0x7FFFFFFF, 0xFFFFFFFF, 0x100000000, 0x100000001, 0x123456789ABCDEF0,
    0x7FFFFFFFFFFFFFFF, 0x8000000000000000, 0xFFFFFFFF00000000, 0xFFFFFFFFFFFFFFFF,
};

static uint64_t state = 88172645463325252u;

static uint64_t next_random(void)
{
    state ^= state << 13;
    state ^= state >> 7;
    state ^= state << 17;
    return state;
}

static uint64_t mixed(uint64_t check, uint64_t value)
{
    return (check ^ value) * 0x100000001B3u;
}

/* Whether a quotient and a remainder belong to these numbers. */
static bool fits(uint64_t dividend, uint64_t divisor, uint64_t quotient, uint64_t remainder)
{
    return quotient * divisor + remainder == dividend;
}

/* What C leaves open is left out: by 0, and the least number by -1. */
static bool is_open(int64_t dividend, int64_t divisor)
{
    return divisor == 0 || (dividend == INT64_MIN && divisor == -1);
}

static bool print_pair(uint64_t dividend, uint64_t divisor)
{
    bool well = true;
    printf("%016llx by %016llx:", (unsigned long long)dividend, (unsigned long long)divisor);
    if (divisor != 0) {
        uint64_t quotient = dividend / divisor, remainder = dividend % divisor;
        printf(" %llx rest %llx", (unsigned long long)quotient, (unsigned long long)remainder);
        well &= fits(dividend, divisor, quotient, remainder) && remainder < divisor;
    }
    int64_t signed_dividend = (int64_t)dividend, signed_divisor = (int64_t)divisor;
    if (!is_open(signed_dividend, signed_divisor)) {
        int64_t quotient = signed_dividend / signed_divisor, remainder = signed_dividend % signed_divisor;
        printf(", %lld rest %lld", (long long)quotient, (long long)remainder);
        well &= fits(dividend, divisor, (uint64_t)quotient, (uint64_t)remainder);
    }
    printf("\n");
    return well;
}

int main(void)
{
    const size_t count = sizeof edges / sizeof edges[0];
    uint64_t check = 0;
    bool well = true;
    for (size_t one = 0; one < count; one++) {
        for (size_t other = 1; other < count; other++)
            well &= print_pair(edges[one], edges[other]);
    }
    for (int round = 0; round < 200; round++) {
        uint64_t dividend = next_random() >> (state & 31), divisor = next_random() >> (state & 63) | 1;
        int64_t signed_dividend = (int64_t)(dividend ^ state << 63), signed_divisor = (int64_t)divisor;
        well &= fits(dividend, divisor, dividend / divisor, dividend % divisor);
        check = mixed(mixed(check, dividend / divisor), dividend % divisor);
        if (!is_open(signed_dividend, signed_divisor)) {
            check = mixed(check, (uint64_t)(signed_dividend / signed_divisor));
            check = mixed(check, (uint64_t)(signed_dividend % signed_divisor));
        }
    }
    printf("200 more: %016llx\n", (unsigned long long)check);
    return !well;
}
