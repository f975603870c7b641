/* At each beat: reads the sample, writes and puts the output, counts the beat. */
#include "microsys.h"

enum { LEAST = 68, MOST = 132 };

static uint32_t within_limits(uint32_t sample) {
    if (sample < LEAST)
        return LEAST;
    if (sample > MOST)
        return MOST;
    return sample;
}

THREAD control(void) {
    uint32_t beats = 0;
    for (;;) {
        sys_wait(CAP_BEAT);
        uint32_t output = 328 - 2 * within_limits(words_at(PAGE_SAMPLE)[0]);
        words_at(PAGE_OUTPUT)[0] = output;
        sys_put_char(output);
        beats++;
        words_at(PAGE_STATUS)[0] = beats;
        handler_ack(CAP_CONTROL_LINE);
    }
}
