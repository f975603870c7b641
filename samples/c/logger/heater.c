/* Reports its degrees, from 20 on. */
#include "microsys.h"

THREAD heater(void) {
    uint32_t degrees = 20;
    for (;;) {
        sys_wait(CAP_WARMED);
        handler_ack(CAP_WARMED_LINE2);
        sys_send(CAP_LOG, MESSAGE(0, degrees));
        degrees++;
    }
}
