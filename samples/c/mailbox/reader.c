/* Puts the word, and empties the box. */
#include "microsys.h"

THREAD reader(void) {
    for (;;) {
        sys_wait(CAP_FULL);
        sys_put_char(words_at(PAGE_BOX)[0]);
        words_at(PAGE_BOX)[0] = 0;
        sys_signal(CAP_EMPTY);
    }
}
