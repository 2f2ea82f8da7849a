/* Floating point in whole numbers, as IEEE 754 has it: rounded to nearest, ties to even, with subnormal numbers.
   Numbers of both widths are taken apart into one form, which all operations share, and rounded once, when they are put
   together. */
#include "bits.h"

struct format {
    int fraction_bits, exponent_bits;
};

static const struct format SINGLE = {23, 8}, DOUBLE = {52, 11};

enum kind { ZERO, FINITE, INFINITE, NOT_A_NUMBER };

/* A finite number is significand * 2^exponent. What is taken apart has its leading bit at 62. */
struct number {
    enum kind kind;
    bool negative;
    int exponent;
    uint64_t significand;
};

static struct number special(enum kind kind, bool negative)
{
    return (struct number){kind, negative, 0, 0};
}

/* The value by 2^places, where all bits that fall out are kept as one: it tells later on that something was there. */
static uint64_t shifted_down(uint64_t value, int places)
{
    if (places > 63)
        return value != 0;
    return value >> places | ((value & (((uint64_t)1 << places) - 1)) != 0);
}

/* The same number, its leading bit at 62. */
static struct number normal(struct number number)
{
    int places = leading_zeros(number.significand) - 1;
    number.significand = places < 0 ? shifted_down(number.significand, 1) : number.significand << places;
    number.exponent -= places;
    return number;
}

static struct number take_apart(uint64_t bits, struct format format)
{
    int top = (1 << format.exponent_bits) - 1;
    int exponent = (int)(bits >> format.fraction_bits) & top;
    uint64_t fraction = bits & (((uint64_t)1 << format.fraction_bits) - 1);
    bool negative = bits >> (format.fraction_bits + format.exponent_bits) & 1;
    if (exponent == top)
        return special(fraction != 0 ? NOT_A_NUMBER : INFINITE, negative);
    if (exponent == 0 && fraction == 0)
        return special(ZERO, negative);
    if (exponent == 0)
        exponent = 1;
    else
        fraction |= (uint64_t)1 << format.fraction_bits;
    return normal((struct number){FINITE, negative, exponent - (top >> 1) - format.fraction_bits, fraction});
}

/* The bits of a finite number without its sign, rounded. A carry out of the fraction goes into the exponent, as it
   should. */
static uint64_t rounded(struct number number, struct format format)
{
    int top = (1 << format.exponent_bits) - 1;
    number = normal(number);
    int exponent = number.exponent + 62 + (top >> 1);
    int dropped = 62 - format.fraction_bits;
    if (exponent >= top)
        return (uint64_t)top << format.fraction_bits;
    if (exponent < 1) {
        dropped += 1 - exponent;
        exponent = 1;
    }
    if (dropped > 63)
        return 0;
    uint64_t kept = number.significand >> dropped;
    uint64_t rest = number.significand - (kept << dropped), half = (uint64_t)1 << (dropped - 1);
    if (rest > half || (rest == half && (kept & 1) != 0))
        kept++;
    return ((uint64_t)(exponent - 1) << format.fraction_bits) + kept;
}

static uint64_t put_together(struct number number, struct format format)
{
    uint64_t sign = (uint64_t)number.negative << (format.fraction_bits + format.exponent_bits);
    uint64_t infinity = (((uint64_t)1 << format.exponent_bits) - 1) << format.fraction_bits;
    switch (number.kind) {
    case ZERO: return sign;
    case FINITE: return sign | rounded(number, format);
    case INFINITE: return sign | infinity;
    default: return infinity | (uint64_t)1 << (format.fraction_bits - 1);
    }
}

static struct number sum(struct number one, struct number other)
{
    bool same = one.negative == other.negative;
    if (one.kind == NOT_A_NUMBER || other.kind == NOT_A_NUMBER)
        return special(NOT_A_NUMBER, false);
    if (one.kind == INFINITE && other.kind == INFINITE)
        return special(same ? INFINITE : NOT_A_NUMBER, one.negative);
    if (one.kind == ZERO && other.kind == ZERO)
        return special(ZERO, one.negative && other.negative);
    if (one.kind == INFINITE || other.kind == ZERO)
        return one;
    if (one.kind == ZERO || other.kind == INFINITE)
        return other;
    if (one.exponent < other.exponent || (one.exponent == other.exponent && one.significand < other.significand)) {
        struct number swapped = one;
        one = other;
        other = swapped;
    }
    uint64_t small = shifted_down(other.significand, one.exponent - other.exponent);
    one.significand += same ? small : 0 - small;
    return one.significand != 0 ? one : special(ZERO, false);
}

/* The upper half of a product of 128 bits, and in its lowest bit whether there is something in the lower half. */
static uint64_t upper_half(uint64_t one, uint64_t other)
{
    uint64_t low = (one & UINT32_MAX) * (other & UINT32_MAX);
    uint64_t middle = (one >> 32) * (other & UINT32_MAX) + (low >> 32);
    uint64_t cross = (one & UINT32_MAX) * (other >> 32) + (middle & UINT32_MAX);
    uint64_t high = (one >> 32) * (other >> 32) + (middle >> 32) + (cross >> 32);
    return high | (((cross | low) & UINT32_MAX) != 0);
}

static struct number product(struct number one, struct number other)
{
    bool negative = one.negative != other.negative;
    bool zero = one.kind == ZERO || other.kind == ZERO, infinite = one.kind == INFINITE || other.kind == INFINITE;
    if (one.kind == NOT_A_NUMBER || other.kind == NOT_A_NUMBER || (zero && infinite))
        return special(NOT_A_NUMBER, false);
    if (zero || infinite)
        return special(zero ? ZERO : INFINITE, negative);
    uint64_t significand = upper_half(one.significand, other.significand);
    return (struct number){FINITE, negative, one.exponent + other.exponent + 64, significand};
}

static struct number quotient(struct number dividend, struct number divisor)
{
    bool negative = dividend.negative != divisor.negative;
    if (dividend.kind == NOT_A_NUMBER || divisor.kind == NOT_A_NUMBER)
        return special(NOT_A_NUMBER, false);
    if (dividend.kind == divisor.kind && dividend.kind != FINITE)
        return special(NOT_A_NUMBER, false);
    if (dividend.kind == INFINITE || divisor.kind == ZERO)
        return special(INFINITE, negative);
    if (dividend.kind == ZERO || divisor.kind == INFINITE)
        return special(ZERO, negative);
    uint64_t rest = dividend.significand, significand = 0;
    for (int bit = 0; bit < 60; bit++) {
        significand <<= 1;
        if (rest >= divisor.significand) {
            rest -= divisor.significand;
            significand |= 1;
        }
        rest <<= 1;
    }
    return (struct number){FINITE, negative, dividend.exponent - divisor.exponent - 59, significand | (rest != 0)};
}

static struct number of_integer(bool negative, uint64_t magnitude)
{
    return magnitude != 0 ? (struct number){FINITE, negative, 0, magnitude} : special(ZERO, false);
}

static struct number of_signed(int64_t value)
{
    return of_integer(value < 0, magnitude_of(value));
}

/* Towards 0. What is too large gives what it gives: C leaves that open. */
static uint64_t integer_of(struct number number)
{
    uint64_t magnitude = 0;
    int places = number.exponent;
    if (number.kind == FINITE && places > -63 && places < 2)
        magnitude = places < 0 ? number.significand >> -places : number.significand << places;
    return number.negative ? 0 - magnitude : magnitude;
}

/* -1, 0 or 1 as in a comparison; 2 where one of them isn't a number. */
static int compared(uint64_t one, uint64_t other, struct format format)
{
    uint64_t sign = (uint64_t)1 << (format.fraction_bits + format.exponent_bits);
    uint64_t infinity = sign - ((uint64_t)1 << format.fraction_bits);
    int64_t left = (int64_t)(one & (sign - 1)), right = (int64_t)(other & (sign - 1));
    if ((uint64_t)left > infinity || (uint64_t)right > infinity)
        return 2;
    left = (one & sign) != 0 ? -left : left;
    right = (other & sign) != 0 ? -right : right;
    return (left > right) - (left < right);
}

static uint64_t add(uint64_t x, uint64_t y, struct format format)
{
    return put_together(sum(take_apart(x, format), take_apart(y, format)), format);
}

static uint64_t multiply(uint64_t x, uint64_t y, struct format format)
{
    return put_together(product(take_apart(x, format), take_apart(y, format)), format);
}

static uint64_t divide(uint64_t x, uint64_t y, struct format format)
{
    return put_together(quotient(take_apart(x, format), take_apart(y, format)), format);
}

/* The names by which compilers call all this, where a number comes and goes as a whole number of its width. */
#define NAMES(letter, bits, format)                                                                              \
    static bits letter##_negated(bits x) { return x ^ (bits)1 << (format.fraction_bits + format.exponent_bits); } \
    bits __aeabi_##letter##add(bits x, bits y) { return (bits)add(x, y, format); }                               \
    bits __aeabi_##letter##sub(bits x, bits y) { return (bits)add(x, letter##_negated(y), format); }             \
    bits __aeabi_##letter##rsub(bits x, bits y) { return (bits)add(letter##_negated(x), y, format); }            \
    bits __aeabi_##letter##mul(bits x, bits y) { return (bits)multiply(x, y, format); }                          \
    bits __aeabi_##letter##div(bits x, bits y) { return (bits)divide(x, y, format); }                            \
    int __aeabi_##letter##cmpeq(bits x, bits y) { return compared(x, y, format) == 0; }                          \
    int __aeabi_##letter##cmplt(bits x, bits y) { return compared(x, y, format) < 0; }                           \
    int __aeabi_##letter##cmple(bits x, bits y) { return compared(x, y, format) <= 0; }                          \
    int __aeabi_##letter##cmpgt(bits x, bits y) { return compared(y, x, format) < 0; }                           \
    int __aeabi_##letter##cmpge(bits x, bits y) { return compared(y, x, format) <= 0; }                          \
    int __aeabi_##letter##cmpun(bits x, bits y) { return compared(x, y, format) == 2; }                          \
    int32_t __aeabi_##letter##2iz(bits x) { return (int32_t)integer_of(take_apart(x, format)); }                 \
    uint32_t __aeabi_##letter##2uiz(bits x) { return (uint32_t)integer_of(take_apart(x, format)); }              \
    int64_t __aeabi_##letter##2lz(bits x) { return (int64_t)integer_of(take_apart(x, format)); }                 \
    uint64_t __aeabi_##letter##2ulz(bits x) { return integer_of(take_apart(x, format)); }                        \
    bits __aeabi_i2##letter(int32_t x) { return (bits)put_together(of_signed(x), format); }                      \
    bits __aeabi_ui2##letter(uint32_t x) { return (bits)put_together(of_integer(false, x), format); }            \
    bits __aeabi_l2##letter(int64_t x) { return (bits)put_together(of_signed(x), format); }                      \
    bits __aeabi_ul2##letter(uint64_t x) { return (bits)put_together(of_integer(false, x), format); }

NAMES(d, uint64_t, DOUBLE)
NAMES(f, uint32_t, SINGLE)

uint64_t __aeabi_f2d(uint32_t x) { return put_together(take_apart(x, SINGLE), DOUBLE); }
uint32_t __aeabi_d2f(uint64_t x) { return (uint32_t)put_together(take_apart(x, DOUBLE), SINGLE); }
