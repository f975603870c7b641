/* Numbers in decimal, without a division: a tenth is a sum of shifts, and the digits are kept in two words, so that no
 * page of data or stack is needed.
 *
 *     put_decimal(counter);
 *
 * Limits: all numbers of 32 bits, without leading zeros.
 * Budget of a thread that puts a number between two waits: 420. */
#ifndef MICROSYS_DECIMAL_H
#define MICROSYS_DECIMAL_H

#include "microsys.h"

/* The quotient and the remainder of a division by ten. */
MICROSYS_INLINE struct division by_ten(uint32_t number) {
    uint32_t quotient = (number >> 1) + (number >> 2);
    quotient += quotient >> 4;
    quotient += quotient >> 8;
    quotient += quotient >> 16;
    quotient >>= 3;
    uint32_t remainder = number - (quotient << 3) - (quotient << 1);
    /* The sum of shifts is at most one too small. */
    if (remainder >= 10) {
        remainder -= 10;
        quotient++;
    }
    return (struct division){quotient, remainder};
}

/* Puts the digits of a number, the first one first. */
MICROSYS_INLINE void put_decimal(uint32_t number) {
    enum { DIGITS = 10 };
    uint32_t low = 0, high = 0;
    for (uint32_t i = 0; i < DIGITS; i++) {
        struct division split = by_ten(number);
        high = high << 4 | low >> 28;
        low = low << 4 | split.remainder;
        number = split.quotient;
    }
    uint32_t is_begun = 0;
    for (uint32_t i = 0; i < DIGITS; i++) {
        uint32_t digit = low & 15;
        low = low >> 4 | high << 28;
        high >>= 4;
        is_begun |= digit;
        if (is_begun || i == DIGITS - 1)
            sys_put_char('0' + digit);
    }
}

#endif
