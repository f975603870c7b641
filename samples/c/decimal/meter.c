/* At each beat: the next number. */
#include "microsys.h"

static const uint32_t measured[4] = {0, 7, 4096, 4294967295};

THREAD meter(void) {
    uint32_t beats = 0;
    for (;;) {
        sys_wait(CAP_BEAT);
        handler_ack(CAP_BEAT_LINE1);
        sys_send(CAP_NUMBERS, MESSAGE(0, measured[beats % 4]));
        beats++;
    }
}
