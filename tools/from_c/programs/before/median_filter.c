/* The median of the last five samples, which takes out spikes: the window is sorted on a copy. */
#include "microsys.h"

#define WINDOW 5

static const int16_t samples[14] = {10, 11, 250, 12, 11, 10, -300, 13, 14, 14, 900, 900, 15, 15};
static int16_t window[WINDOW];

static int16_t median(void) {
    int16_t sorted[WINDOW];
    for (int i = 0; i < WINDOW; i++) {
        int16_t sample = window[i];
        int j = i - 1;
        while (j >= 0 && sorted[j] > sample) {
            sorted[j + 1] = sorted[j];
            j--;
        }
        sorted[j + 1] = sample;
    }
    return sorted[WINDOW / 2];
}

THREAD main(void) {
    unsigned next = 0;
    for (;;) {
        sys_wait(CAP_BELL);
        for (int i = 0; i < 14; i++) {
            window[next] = samples[i];
            if (++next == WINDOW)
                next = 0;
            sys_put_char(median());
        }
        handler_ack(CAP_LINE);
    }
}
