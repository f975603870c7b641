/* Counts by one, and puts its count and the sum. */
#include "microsys.h"

THREAD left(void) {
    for (;;) {
        sys_wait(CAP_LEFT_BELL);
        struct message answer = sys_call(CAP_COUNT, MESSAGE(0, 1));
        sys_put_char(answer.words[0]);
        sys_put_char(answer.words[1]);
        handler_ack(CAP_LEFT_BELL_LINE1);
    }
}
