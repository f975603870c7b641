/* Products that RV32I has no instruction for: of few bits in fewer rounds, and of 64 bits.
 *
 *     uint32_t area = product_of(12, width, height);            height is below 2^12
 *     uint64_t steps = wide_product(frequency, interval);
 *
 * Limits: `bits` is a constant, 1 to 32; what the second factor has above so many bits does not count.
 * Budget of a thread that makes a product of 12 bits between two waits: 120; one of 64 bits: 545. */
#ifndef MICROSYS_PRODUCT_H
#define MICROSYS_PRODUCT_H

#include "microsys.h"

/* The low word of the product with the lowest bits of the second factor, so many rounds. */
MICROSYS_INLINE uint32_t product_of(uint32_t bits, uint32_t a, uint32_t b) {
    uint32_t sum = 0;
    for (uint32_t bit = 0; bit < bits; bit++) {
        if (b & 1)
            sum += a;
        a <<= 1;
        b >>= 1;
    }
    return sum;
}

/* The whole product, in 32 rounds. */
MICROSYS_INLINE uint64_t wide_product(uint32_t a, uint32_t b) {
    uint64_t sum = 0, shifted = a;
    for (uint32_t bit = 0; bit < 32; bit++) {
        if (b & 1)
            sum += shifted;
        shifted <<= 1;
        b >>= 1;
    }
    return sum;
}

#endif
