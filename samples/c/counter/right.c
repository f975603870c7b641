/* Counts by ten, and puts its count and the sum. */
#include "microsys.h"

THREAD right(void) {
    for (;;) {
        sys_wait(CAP_RIGHT_BELL);
        struct message answer = sys_call(CAP_COUNT, MESSAGE(0, 10));
        sys_put_char(answer.words[0]);
        sys_put_char(answer.words[1]);
        handler_ack(CAP_RIGHT_BELL_LINE2);
    }
}
