/* 64-bit division. As with the 32-bit instructions, a division by 0 gives 0, and the remainder is then the dividend. */
#include "bits.h"

/* By a number of 16 bits: the 32-bit instruction makes 16 bits of the quotient at a time. */
static uint64_t divide_by_small(uint64_t dividend, uint32_t divisor, uint64_t *remainder)
{
    uint64_t quotient = 0;
    uint32_t rest = 0;
    for (int place = 48; place >= 0; place -= 16) {
        uint32_t part = rest << 16 | (uint16_t)(dividend >> place);
        quotient = quotient << 16 | part / divisor;
        rest = part % divisor;
    }
    *remainder = rest;
    return quotient;
}

/* Otherwise bit by bit, from the first that can be 1. */
uint64_t divide_unsigned(uint64_t dividend, uint64_t divisor, uint64_t *remainder)
{
    uint64_t quotient = 0;
    if (divisor - 1 < UINT16_MAX)
        return divide_by_small(dividend, (uint32_t)divisor, remainder);
    if (divisor != 0) {
        for (int shift = leading_zeros(divisor) - leading_zeros(dividend); shift >= 0; shift--) {
            quotient <<= 1;
            if (dividend >= divisor << shift) {
                dividend -= divisor << shift;
                quotient |= 1;
            }
        }
    }
    *remainder = dividend;
    return quotient;
}

/* Towards 0; the remainder has the sign of the dividend. */
int64_t divide_signed(int64_t dividend, int64_t divisor, int64_t *remainder)
{
    uint64_t rest;
    uint64_t quotient = divide_unsigned(magnitude_of(dividend), magnitude_of(divisor), &rest);
    *remainder = (int64_t)(dividend < 0 ? 0 - rest : rest);
    return (int64_t)((dividend < 0) != (divisor < 0) ? 0 - quotient : quotient);
}
