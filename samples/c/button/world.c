/* The levels of a button that is pressed and let go, and bounces. */
#include "microsys.h"

static const uint8_t levels[16] = {1, 0, 1, 1, 1, 1, 1, 0, 1, 0, 0, 0, 0, 0, 0, 0};

THREAD world(void) {
    uint32_t changes = 0;
    for (;;) {
        sys_wait(CAP_CHANGE);
        words_at(PAGE_PINS)[0] = levels[changes % 16];
        changes++;
        handler_ack(CAP_CHANGE_LINE2);
    }
}
