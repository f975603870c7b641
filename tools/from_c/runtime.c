/* What gcc calls by itself in C for RV32I, and what <string.h> declares: products and quotients, shifts, copies, fills and
 * comparisons of memory. Each call is copied into its caller, and its loops are certified with the caller's numbers: they
 * end where the length is known. Each is weak, so that a maker's own function of that name takes its place. */
#include <string.h>

#include "microsys.h"

#define WEAK __attribute__((weak))

/* A remainder is below its divisor, which the verifier cannot know. Where a program is not certified as it is, it is shown
 * by a test. */
#ifdef MICROSYS_SHOWN_REMAINDERS
#define SHOWN(divisor, remainder) below(divisor, remainder)
#else
#define SHOWN(divisor, remainder) (remainder)
#endif

WEAK uint32_t __mulsi3(uint32_t a, uint32_t b) {
    return product(a, b);
}

WEAK uint32_t __udivsi3(uint32_t dividend, uint32_t divisor) {
    return division(dividend, divisor).quotient;
}

WEAK uint32_t __umodsi3(uint32_t dividend, uint32_t divisor) {
    return SHOWN(divisor, division(dividend, divisor).remainder);
}

static uint32_t magnitude(int32_t value) {
    return value < 0 ? -(uint32_t)value : (uint32_t)value;
}

WEAK int32_t __divsi3(int32_t dividend, int32_t divisor) {
    uint32_t quotient = division(magnitude(dividend), magnitude(divisor)).quotient;
    return (dividend < 0) != (divisor < 0) ? -quotient : quotient;
}

WEAK int32_t __modsi3(int32_t dividend, int32_t divisor) {
    uint32_t remainder = SHOWN(magnitude(divisor), division(magnitude(dividend), magnitude(divisor)).remainder);
    return dividend < 0 ? -remainder : remainder;
}

/* 32 rounds: bit by bit of the low word the first factor, and of the high word what of it is not shifted out. */
WEAK uint64_t __muldi3(uint64_t a, uint64_t b) {
    uint64_t sum = 0, shifted = a;
    uint32_t low = b, high = b >> 32, above = 0;
    for (uint32_t bit = 0; bit < 32; bit++) {
        if (low & 1)
            sum += shifted;
        if (high & 1)
            above += (uint32_t)shifted;
        shifted <<= 1;
        low >>= 1;
        high >>= 1;
    }
    return sum + ((uint64_t)above << 32);
}

WEAK uint64_t __ashldi3(uint64_t value, int by) {
    uint32_t low = value, high = value >> 32;
    if (by == 0)
        return value;
    if (by >= 32)
        return (uint64_t)(low << (by - 32)) << 32;
    return (uint64_t)(high << by | low >> (32 - by)) << 32 | low << by;
}

WEAK uint64_t __lshrdi3(uint64_t value, int by) {
    uint32_t low = value, high = value >> 32;
    if (by == 0)
        return value;
    if (by >= 32)
        return high >> (by - 32);
    return (uint64_t)(high >> by) << 32 | (low >> by | high << (32 - by));
}

WEAK int64_t __ashrdi3(int64_t value, int by) {
    uint32_t low = value;
    int32_t high = value >> 32;
    if (by == 0)
        return value;
    if (by >= 32)
        return high >> (by - 32);
    return (int64_t)((uint64_t)(uint32_t)(high >> by) << 32 | (low >> by | (uint32_t)high << (32 - by)));
}

struct wide_division {
    uint64_t quotient, remainder;
};

/* Long division of 64 bits, as `division` does it. */
MICROSYS_INLINE struct wide_division wide_division(uint64_t dividend, uint64_t divisor) {
    uint64_t quotient = 0, remainder = 0;
    for (uint32_t bit = 0; bit < 64; bit++) {
        uint32_t above = remainder >> 63;
        remainder = remainder << 1 | dividend >> 63;
        dividend <<= 1;
        quotient <<= 1;
        if (above || remainder >= divisor) {
            remainder -= divisor;
            quotient |= 1;
        }
    }
    return (struct wide_division){quotient, remainder};
}

WEAK uint64_t __udivdi3(uint64_t dividend, uint64_t divisor) {
    return wide_division(dividend, divisor).quotient;
}

WEAK uint64_t __umoddi3(uint64_t dividend, uint64_t divisor) {
    return wide_division(dividend, divisor).remainder;
}

static uint64_t wide_magnitude(int64_t value) {
    return value < 0 ? -(uint64_t)value : (uint64_t)value;
}

WEAK int64_t __divdi3(int64_t dividend, int64_t divisor) {
    uint64_t quotient = wide_division(wide_magnitude(dividend), wide_magnitude(divisor)).quotient;
    return (dividend < 0) != (divisor < 0) ? -quotient : quotient;
}

WEAK int64_t __moddi3(int64_t dividend, int64_t divisor) {
    uint64_t remainder = wide_division(wide_magnitude(dividend), wide_magnitude(divisor)).remainder;
    return dividend < 0 ? -remainder : remainder;
}

WEAK void *memcpy(void *restrict to, const void *restrict from, size_t length) {
    for (size_t i = 0; i < length; i++)
        ((uint8_t *)to)[i] = ((const uint8_t *)from)[i];
    return to;
}

WEAK void *memmove(void *to, const void *from, size_t length) {
    if ((uintptr_t)to <= (uintptr_t)from)
        for (size_t i = 0; i < length; i++)
            ((uint8_t *)to)[i] = ((const uint8_t *)from)[i];
    else
        for (size_t i = length; i > 0; i--)
            ((uint8_t *)to)[i - 1] = ((const uint8_t *)from)[i - 1];
    return to;
}

WEAK void *memset(void *at, int value, size_t length) {
    for (size_t i = 0; i < length; i++)
        ((uint8_t *)at)[i] = value;
    return at;
}

WEAK int memcmp(const void *one, const void *other, size_t length) {
    for (size_t i = 0; i < length; i++) {
        int difference = ((const uint8_t *)one)[i] - ((const uint8_t *)other)[i];
        if (difference != 0)
            return difference;
    }
    return 0;
}

WEAK size_t strnlen(const char *text, size_t most) {
    for (size_t i = 0; i < most; i++)
        if (text[i] == 0)
            return i;
    return most;
}

WEAK int strncmp(const char *one, const char *other, size_t most) {
    for (size_t i = 0; i < most; i++) {
        int difference = (uint8_t)one[i] - (uint8_t)other[i];
        if (difference != 0 || one[i] == 0)
            return difference;
    }
    return 0;
}
