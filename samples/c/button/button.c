/* At each beat: a sample. It puts '+' where the button is down, '-' where it is up again, and the number of the
 * sample that showed it. */
#include "microsys.h"
#include "debounce.h"

THREAD button(void) {
    struct debounced keys = {0, 0, 0};
    uint32_t samples = 0;
    for (;;) {
        sys_wait(CAP_BEAT);
        samples++;
        if (debounce(&keys, words_at(PAGE_PINS)[0])) {
            sys_put_char(keys.state ? '+' : '-');
            sys_put_char(samples);
        }
        handler_ack(CAP_BEAT_LINE1);
    }
}
