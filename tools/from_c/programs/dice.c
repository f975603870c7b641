/* Marsaglia's xorshift with 32 bits, and dice from it without bias. */
#include "microsys.h"

static uint32_t state = 2463534242u;

static uint32_t next(void) {
    state ^= state << 13;
    state ^= state >> 17;
    state ^= state << 5;
    return state;
}

static uint8_t roll(void) {
    uint32_t bits = 6;
    for (unsigned round = 0; round < 40 && bits >= 6; round++)
        bits = next() & 7;
    return bits + 1;
}

THREAD main(void) {
    uint32_t histogram[6] = {0};
    for (;;) {
        sys_wait(CAP_BELL);
        for (int i = 0; i < 60; i++)
            histogram[below(6, roll() - 1)]++;
        for (int i = 0; i < 6; i++)
            sys_put_char(histogram[i]);
        handler_ack(CAP_LINE);
    }
}
