/* A PID controller in whole numbers, with gains in sixteenths; the sum of errors and the output are kept within limits.
 * */
#include "microsys.h"

struct gains {
    int32_t proportional, integral, differential;
};
static volatile struct gains gains = {24, 4, 8};
static const uint8_t measured[6] = {20, 50, 90, 120, 110, 101};
enum { WANTED = 100, LIMIT = 100 };

static int32_t within(int32_t low, int32_t value, int32_t high) {
    return value < low ? low : value > high ? high : value;
}

THREAD main(void) {
    for (;;) {
        sys_wait(CAP_BELL);
        int32_t sum = 0, last = WANTED;
        for (uint32_t i = 0; i < 6; i++) {
            int32_t error = WANTED - measured[i];
            sum = within(-LIMIT, sum + error, LIMIT);
            int32_t change = last - measured[i];
            last = measured[i];
            int32_t output = product(gains.proportional, error);
            output += product(gains.integral, sum);
            output += product(gains.differential, change);
            sys_put_char(within(0, output >> 4, 255));
        }
        handler_ack(CAP_LINE);
    }
}
