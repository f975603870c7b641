// thread_returns.c:7: `main` returns, and a thread has nowhere to return to: end it with a loop that waits
#include "microsys.h"

THREAD main(void) {
    for (uint32_t rings = 0; rings < 3; rings++) {
        if (sys_wait(CAP_BELL) == 0)
            return;
        sys_put_char('!');
    }
}
