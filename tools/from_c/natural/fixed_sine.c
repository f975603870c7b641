/* Sine, square root and a division in Q16. */
#include "microsys.h"

typedef int32_t q16;

static q16 multiply(q16 a, q16 b) {
    return (int64_t)a * b >> 16;
}

static q16 divide(q16 a, q16 b) {
    return ((int64_t)a << 16) / b;
}

static uint32_t root(uint32_t value) {
    uint32_t result = 0, bit = 1u << 30;
    while (bit > value) {
        AT_MOST(16);
        bit >>= 2;
    }
    while (bit != 0) {
        AT_MOST(16);
        if (value >= result + bit) {
            value -= result + bit;
            result = (result >> 1) + bit;
        } else {
            result >>= 1;
        }
        bit >>= 2;
    }
    return result;
}

/* Bhaskara's formula, of degrees from 0 to 180. */
static q16 sine(int degrees) {
    int product = degrees * (180 - degrees);
    return divide(4 * product, 40500 - product);
}

static void put16(uint32_t value) {
    sys_put_char(value >> 8);
    sys_put_char(value);
}

THREAD main(void) {
    for (;;) {
        sys_wait(CAP_BELL);
        for (int degrees = 0; degrees <= 180; degrees += 30)
            put16(sine(degrees) >> 1);
        put16(root(1000000));
        put16(multiply(3 << 16, 1 << 15) >> 8);
        handler_ack(CAP_LINE);
    }
}
