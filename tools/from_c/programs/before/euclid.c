/* The greatest common divisor and the least common multiple of pairs of numbers. */
#include "microsys.h"

static const uint32_t pairs[5][2] = {{12, 18}, {17, 5}, {100, 75}, {0, 9}, {1071, 462}};

static uint32_t gcd(uint32_t a, uint32_t b) {
    while (b != 0) {
        uint32_t t = a % b;
        a = b;
        b = t;
    }
    return a;
}

THREAD main(void) {
    for (;;) {
        sys_wait(CAP_BELL);
        for (unsigned i = 0; i < 5; i++) {
            uint32_t a = pairs[i][0], b = pairs[i][1];
            uint32_t divisor = gcd(a, b);
            uint32_t multiple = a / divisor * b;
            sys_put_char(divisor);
            sys_put_char(multiple >> 8);
            sys_put_char(multiple);
        }
        handler_ack(CAP_LINE);
    }
}
