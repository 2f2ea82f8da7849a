/* What quotient.c and floating.c share. */
#ifndef BITS_H
#define BITS_H

#include "../library.h"

/* How many zeros stand above the highest one: 64 where there is none. */
static inline int leading_zeros(uint64_t value)
{
    uint32_t high = (uint32_t)(value >> 32), low = (uint32_t)value;
    if (high != 0)
        return __builtin_clz(high);
    return 32 + (low != 0 ? __builtin_clz(low) : 32);
}

/* What is left of a signed number without its sign. */
static inline uint64_t magnitude_of(int64_t value)
{
    return value < 0 ? 0 - (uint64_t)value : (uint64_t)value;
}

#endif
