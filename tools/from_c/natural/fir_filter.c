/* A FIR filter over a circular history, in Q15. */
#include "microsys.h"

#define TAPS 8

static const int16_t taps[TAPS] = {-512, 1024, 4096, 11776, 11776, 4096, 1024, -512};
static int16_t history[TAPS];
static uint8_t newest;

static int16_t filter(int16_t sample) {
    history[newest] = sample;
    int64_t sum = 0;
    uint8_t at = newest;
    for (int i = 0; i < TAPS; i++) {
        sum += (int64_t)taps[i] * history[at];
        at = at == 0 ? TAPS - 1 : at - 1;
    }
    newest = (newest + 1) % TAPS;
    return sum >> 15;
}

THREAD main(void) {
    for (;;) {
        sys_wait(CAP_BELL);
        for (int i = 0; i < 12; i++) {
            int16_t out = filter(i < 4 ? 8000 : -3000 + 100 * i);
            sys_put_char(out >> 8);
            sys_put_char(out);
        }
        handler_ack(CAP_LINE);
    }
}
