/* Reports how many turns it has made. */
#include "microsys.h"

THREAD motor(void) {
    uint32_t turns = 0;
    for (;;) {
        sys_wait(CAP_TURNED);
        turns++;
        handler_ack(CAP_TURNED_LINE1);
        sys_send(CAP_LOG, MESSAGE(0, turns));
    }
}
