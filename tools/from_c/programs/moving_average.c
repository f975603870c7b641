/* A moving average over eight samples, with a running sum. */
#include "microsys.h"

#define WINDOW 8

static const uint16_t adc[20] = {512, 520, 498, 505, 4095, 510, 503, 499, 515, 508,
                                 507, 501, 0,   512, 509,  511, 506, 504, 513, 510};

struct average {
    uint16_t window[WINDOW];
    uint32_t sum;
    uint8_t next, filled;
};

static uint16_t average_add(struct average *it, uint16_t sample) {
    it->sum -= it->window[it->next];
    it->sum += sample;
    it->window[it->next] = sample;
    it->next = (it->next + 1) % WINDOW;
    if (it->filled < WINDOW)
        it->filled++;
    return it->sum / it->filled;
}

THREAD main(void) {
    static struct average average;
    for (;;) {
        sys_wait(CAP_BELL);
        for (int i = 0; i < 20; i++) {
            uint16_t mean = average_add(&average, adc[i]);
            sys_put_char(mean >> 8);
            sys_put_char(mean & 0xff);
        }
        handler_ack(CAP_LINE);
    }
}
