/* A low-pass filter of seven taps, in 256ths. */
#include "microsys.h"

#define TAPS 7

static const int16_t taps[TAPS] = {-8, 20, 70, 92, 70, 20, -8};
static const int16_t input[16] = {0, 0, 256, 0, 0, 0, 0, 0, 0, 100, 100, 100, 100, -100, -100, -100};
static int16_t delay[TAPS];

static int16_t fir(int16_t sample) {
    int32_t sum = 0;
    for (int i = TAPS - 1; i > 0; i--)
        delay[i] = delay[i - 1];
    delay[0] = sample;
    for (int i = 0; i < TAPS; i++)
        sum += taps[i] * delay[i];
    return sum >> 8;
}

THREAD main(void) {
    for (;;) {
        sys_wait(CAP_BELL);
        for (int i = 0; i < 16; i++)
            sys_put_char(fir(input[i]));
        handler_ack(CAP_LINE);
    }
}
