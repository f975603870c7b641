// door_for_bell.c:7: error: incompatible type for argument 1 of 'sys_wait': expected 'struct bell' but argument is of type 'struct line'
#include "microsys.h"

THREAD main(void) {
    for (;;) {
        /* A line is acknowledged, and a bell is waited for. */
        sys_wait(CAP_LINE);
        handler_ack(CAP_LINE);
    }
}
