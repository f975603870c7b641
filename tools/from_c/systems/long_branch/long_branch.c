/* Where `ready` is 7, calls two functions 32 times, in 32 places: copies of these stand between the test and what is
 * behind it. */
#include "microsys.h"
#include "scaled.h"

enum { LENGTH = 200 };
static volatile uint32_t ready = 7, value = 3;

__attribute__((noinline)) static uint32_t mixed(uint32_t seed) {
    uint32_t words[LENGTH];
    for (uint32_t i = 0; i < LENGTH; i++)
        words[i] = seed + i;
    uint32_t sum = 0;
    for (uint32_t i = 0; i < LENGTH; i++)
        sum = sum * 5 + words[LENGTH - 1 - i];
    return sum;
}

#define ONCE(factor) value = scaled(mixed(value), factor);
#define FOUR_TIMES(factor) ONCE(factor) ONCE(factor) ONCE(factor) ONCE(factor)

THREAD mixer(uint32_t factor) {
    for (;;) {
        sys_wait(CAP_BELL);
        if (ready == 7) {
            FOUR_TIMES(factor)
            FOUR_TIMES(factor)
            FOUR_TIMES(factor)
            FOUR_TIMES(factor)
            FOUR_TIMES(factor)
            FOUR_TIMES(factor)
            FOUR_TIMES(factor)
            FOUR_TIMES(factor)
        }
        for (uint32_t byte = 0; byte < 4; byte++)
            sys_put_char(value >> (8 * byte));
        sys_put_char(scaled(2, factor));
        handler_ack(CAP_LINE);
        ready = 0;
    }
}
