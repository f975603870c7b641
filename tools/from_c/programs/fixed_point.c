/* Fixed point with 16 bits behind the point: a sine from a table of a quarter, with linear interpolation. */
#include "microsys.h"

typedef int32_t fixed;

static const uint16_t quarter[17] = {0,     6423,  12785, 19024, 25079, 30893, 36409, 41575, 46340,
                                     50660, 54491, 57797, 60547, 62714, 64276, 65220, 65535};

/* The product, whose factors are below 2^16 in magnitude for the second. */
static fixed scale(fixed a, int32_t part) {
    return (a * part) >> 8;
}

/* The sine of a turn's 4096ths. */
static fixed sine(uint32_t angle) {
    uint32_t in_half = angle & 2047;
    if (in_half > 1024)
        in_half = 2048 - in_half;
    uint32_t index = in_half >> 6;
    int32_t part = (in_half & 63) << 2;
    fixed value = quarter[index];
    if (index < 16)
        value += scale((fixed)quarter[index + 1] - (fixed)quarter[index], part);
    return angle & 2048 ? -value : value;
}

THREAD main(void) {
    for (;;) {
        sys_wait(CAP_BELL);
        for (uint32_t angle = 0; angle < 4096; angle += 300) {
            fixed value = sine(angle);
            sys_put_char(value >> 16);
            sys_put_char(value >> 8);
        }
        handler_ack(CAP_LINE);
    }
}
