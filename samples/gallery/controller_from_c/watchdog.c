/* Puts '!' where the count of beats stands as at the last check. */
#include "microsys.h"

THREAD watchdog(void) {
    uint32_t seen = 0;
    for (;;) {
        sys_wait(CAP_CHECK);
        uint32_t beats = words_at(PAGE_STATUS)[0];
        if (beats == seen)
            sys_put_char('!');
        seen = beats;
        handler_ack(CAP_WATCHDOG_LINE);
    }
}
