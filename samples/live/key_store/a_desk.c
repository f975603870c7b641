/* The desk of client A. */
#include "desk.h"

THREAD a_desk(void) {
    for (;;) {
        sys_wait(CAP_A_BELL);
        hand_on(words_at(PAGE_A_REQUESTS), words_at(PAGE_A_ANSWERS));
        handler_ack(CAP_A_BELL_LINE1);
    }
}
