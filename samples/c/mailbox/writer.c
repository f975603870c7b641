/* Once it is started: a word a letter, and the next when the box is empty. */
#include "microsys.h"

static const char letters[5] = "hello";

THREAD writer(void) {
    for (;;) {
        sys_wait(CAP_START);
        handler_ack(CAP_START_LINE1);
        for (uint32_t i = 0; i < sizeof letters; i++) {
            words_at(PAGE_BOX)[0] = letters[i];
            sys_signal(CAP_FULL);
            sys_wait(CAP_EMPTY);
        }
        sys_put_char('\n');
    }
}
