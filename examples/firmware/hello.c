/* The C library's printf: newlib's by `make hello-newlib.elf`, and console.c's by `make hello-plain.elf`. */
#if __STDC_HOSTED__
#include <stdio.h>
#else
#include "library.h"
#endif

int main(void)
{
    static const int primes[] = {2, 3, 5, 7, 11, 13};
    int sum = 0;
    printf("hello from %s\n", "main");
    for (unsigned at = 0; at < sizeof primes / sizeof primes[0]; at++) {
        sum += primes[at];
        printf("%2u: %4d %08x\n", at, primes[at], (unsigned)primes[at] * 0x01010101u);
    }
    printf("sum %d, %s, %lld\n", sum, sum == 41 ? "right" : "wrong", 1234567890123456789LL);
    return sum == 41 ? 0 : 1;
}
