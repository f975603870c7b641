/* At each ring of the bell: a sample of eight keys, of which some bounce for three samples where they change. */
#include "microsys.h"
#include "debounce.h"

#include "random.h"

static struct debounced keys;

THREAD main(void) {
    uint32_t rings = 0, down = 0;
    for (;;) {
        sys_wait(CAP_BELL);
        uint32_t random = next_random();
        if ((rings & 7) == 0)
            down = random >> 8 & 0xFF;
        uint32_t sample = (rings & 7) < 3 ? down ^ (random & 0x55) : down;
        rings++;
        sys_put_char(debounce(&keys, sample));
        sys_put_char(keys.state);
        handler_ack(CAP_LINE);
    }
}
