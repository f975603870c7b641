/* Four keys that bounce: a key has changed when it has read the same for three samples, counted in two bits for each key
 * at once (vertical counters). Each change is put, as the key's number with the sign of its direction. */
#include "microsys.h"

static const uint8_t samples[] = {0x0, 0x1, 0x0, 0x1, 0x1, 0x1, 0x1, 0x3, 0x7, 0x3, 0x3, 0x3,
                                  0x2, 0x2, 0x3, 0x2, 0x2, 0x2, 0x2, 0x8, 0x8, 0x0, 0x0, 0x0};

struct keys {
    uint8_t state, low, high;
};

/* The keys that have changed with this sample. */
static uint8_t debounce(struct keys *keys, uint8_t sample) {
    uint8_t delta = sample ^ keys->state;
    uint8_t changed = delta & keys->low & keys->high;
    keys->high = (keys->high ^ keys->low) & delta & ~changed;
    keys->low = ~keys->low & delta & ~changed;
    keys->state ^= changed;
    return changed;
}

THREAD main(void) {
    static struct keys keys;
    for (;;) {
        sys_wait(CAP_BELL);
        for (unsigned i = 0; i < sizeof samples; i++) {
            uint8_t changed = debounce(&keys, samples[i]);
            for (unsigned key = 0; key < 4; key++)
                if (changed & (1u << key))
                    sys_put_char((keys.state >> key & 1 ? '+' : '-'));
            if (changed)
                sys_put_char(keys.state);
        }
        handler_ack(CAP_LINE);
    }
}
