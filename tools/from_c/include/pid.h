/* A PID controller in whole numbers: gains in 256ths, and an output and a sum of errors within limits.
 *
 *     static struct pid loop = {.proportional = 384, .integral = 64, .differential = 128, .low = 0, .high = 255, .most = 100};
 *     int32_t output = pid_step(&loop, wanted, words_at(PAGE_MEASURED)[0]);
 *
 * Limits: gains are 0 to 4095 (16 less a 256th); wanted and measured values are within -32768 and 32767, the sum of
 * errors within -`most` and `most`, at most 32767. Then no sum passes 32 bits. `last` is what was measured last: set it
 * to the first measurement where a jump at the first step is not wanted.
 * Budget of a thread that makes a step between two waits: 348. */
#ifndef MICROSYS_PID_H
#define MICROSYS_PID_H

#include "product.h"

enum { PID_GAIN_BITS = 12, PID_POINT = 8 };

struct pid {
    uint32_t proportional, integral, differential; /* in 256ths */
    int32_t low, high;                             /* the limits of the output */
    int32_t most;                                  /* the limit of the sum of errors */
    int32_t sum, last;                             /* the sum of errors, and what was measured last */
};

/* The value, or the limit that it passes. */
MICROSYS_INLINE int32_t pid_within(int32_t low, int32_t value, int32_t high) {
    return value < low ? low : value > high ? high : value;
}

/* The output after a measurement, rounded down. */
MICROSYS_INLINE int32_t pid_step(struct pid *loop, int32_t wanted, int32_t measured) {
    int32_t error = wanted - measured, change = loop->last - measured;
    loop->sum = pid_within(-loop->most, loop->sum + error, loop->most);
    loop->last = measured;
    uint32_t output = product_of(PID_GAIN_BITS, error, loop->proportional);
    output += product_of(PID_GAIN_BITS, loop->sum, loop->integral);
    output += product_of(PID_GAIN_BITS, change, loop->differential);
    return pid_within(loop->low, (int32_t)output >> PID_POINT, loop->high);
}

#endif
