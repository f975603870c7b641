/* At each beat: has nine digits summed up, and puts the sum. */
#include "microsys.h"
#include "requests.h"

THREAD client(void) {
    for (;;) {
        sys_wait(CAP_BEAT);
        for (uint32_t i = 1; i < 10; i++)
            sys_call(CAP_SUMS, MESSAGE(ADD, '0' + i));
        struct message answer = sys_call(CAP_SUMS, MESSAGE(CHECK));
        for (uint32_t byte = 0; byte < 4; byte++)
            sys_put_char(answer.words[0] >> (24 - 8 * byte));
        handler_ack(CAP_BEAT_LINE1);
    }
}
