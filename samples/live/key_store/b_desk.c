/* The desk of client B. */
#include "desk.h"

THREAD b_desk(void) {
    for (;;) {
        sys_wait(CAP_B_BELL);
        hand_on(words_at(PAGE_B_REQUESTS), words_at(PAGE_B_ANSWERS));
        handler_ack(CAP_B_BELL_LINE2);
    }
}
