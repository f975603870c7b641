/* At each beat the clients have their quotas again. */
#include "requests.h"

THREAD clock(void) {
    for (;;) {
        sys_wait(CAP_BEAT);
        sys_call(CAP_ASKS, MESSAGE(BEAT));
        handler_ack(CAP_BEAT_LINE3);
    }
}
