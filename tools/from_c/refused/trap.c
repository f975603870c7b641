// trap.c:7: a trap: the C has no meaning on this way (as a division by 0 has none), or says __builtin_trap
#include "microsys.h"

THREAD main(void) {
    for (;;) {
        if (sys_wait(CAP_BELL) == 0)
            __builtin_trap();
    }
}
