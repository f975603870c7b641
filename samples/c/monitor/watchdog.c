/* At each check: '.' where the monitor has signalled since the last, and '!' where it has not. */
#include "microsys.h"

THREAD watchdog(void) {
    for (;;) {
        sys_wait(CAP_CHECK);
        sys_put_char(sys_poll(CAP_ALIVE) ? '.' : '!');
        handler_ack(CAP_CHECK_LINE2);
    }
}
