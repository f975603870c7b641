// computed_jump.c:9: a jump to a computed address: write `switch` or `if` in place of `goto *`
#include "microsys.h"

THREAD main(void) {
    static void *const places[2] = {&&first, &&second};
    for (;;) {
        uint32_t badge = sys_wait(CAP_BELL);
        /* GNU C's jump to a label's address. */
        goto *places[badge & 1];
    first:
        sys_put_char('1');
        continue;
    second:
        sys_put_char('2');
    }
}
