/* Operations on doubles in whole numbers. */
#include "rounding.h"

/* A double has 53 digits, the first of them not written. Before it is rounded a number has 3 more; the last is 1 also if any digit
   after it is. */
enum { DIGITS = 53, MORE = 3 };

static uint64_t exponent_of(uint64_t bits)
{
    return bits >> (DIGITS - 1);
}

static uint64_t digits_of(uint64_t bits)
{
    uint64_t first = UINT64_C(1) << (DIGITS - 1);
    return first | (bits & (first - 1));
}

static uint64_t shifted(uint64_t digits, uint64_t by)
{
    while (by-- > 0) digits = digits >> 1 | (digits & 1);
    return digits;
}

/* The double of these digits, 3 of them too many: below half of the last place down, above it up, and half to the even one. */
static uint64_t rounded(uint64_t exponent, uint64_t digits)
{
    uint64_t rest = digits & 7, kept = digits >> MORE;
    if (rest > 4 || (rest == 4 && kept % 2 == 1)) kept++;
    if (kept >> DIGITS == 1) {
        kept >>= 1;
        exponent++;
    }
    return exponent << (DIGITS - 1) | (kept & ~(UINT64_C(1) << (DIGITS - 1)));
}

uint64_t rounded_sum(uint64_t x, uint64_t y)
{
    uint64_t exponent, digits;
    if (x < y) return rounded_sum(y, x);
    if (y == 0) return x;
    exponent = exponent_of(x);
    digits = (digits_of(x) << MORE) + shifted(digits_of(y) << MORE, exponent - exponent_of(y));
    if (digits >> (DIGITS + MORE) == 0) return rounded(exponent, digits);
    return rounded(exponent + 1, shifted(digits, 1));
}

/* By long division, digit by digit. */
uint64_t rounded_quotient(uint64_t x, size_t count)
{
    uint64_t exponent = exponent_of(x) + MORE, quotient = digits_of(x) / count, rest = digits_of(x) % count;
    if (x == 0) return 0;
    while (quotient >> (DIGITS + MORE - 1) == 0) {
        rest *= 2;
        quotient = 2 * quotient + rest / count;
        rest %= count;
        exponent--;
    }
    return rounded(exponent, quotient | (rest != 0));
}
