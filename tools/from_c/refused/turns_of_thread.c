// turns_of_thread.c:6: AT_MOST(8) is in no loop without a wait: it is the first statement of a loop's body
#include "microsys.h"

THREAD main(void) {
    for (;;) {
        AT_MOST(8);
        sys_wait(CAP_BELL);
    }
}
