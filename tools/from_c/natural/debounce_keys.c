/* Four keys that bounce: a change counts after three equal samples. */
#include "microsys.h"

#define KEYS 4
#define STEADY 3

struct key {
    uint8_t level, candidate, count;
};

static struct key keys[KEYS];
static const uint8_t samples[] = {0x0, 0x1, 0x3, 0x1, 0x1, 0x9, 0x9, 0x9, 0x8, 0x9, 0x8, 0x8, 0x8, 0x0, 0x0, 0x0};

static int update(struct key *key, uint8_t level) {
    if (level != key->candidate) {
        key->candidate = level;
        key->count = 0;
    }
    if (key->count < STEADY && ++key->count == STEADY && key->level != level) {
        key->level = level;
        return 1;
    }
    return 0;
}

THREAD main(void) {
    for (;;) {
        sys_wait(CAP_BELL);
        for (unsigned t = 0; t < sizeof samples; t++) {
            struct key *key = keys;
            for (uint8_t mask = 1; mask < 1 << KEYS; mask <<= 1, key++) {
                AT_MOST(4);
                if (update(key, (samples[t] & mask) != 0)) {
                    sys_put_char('0' + (key - keys));
                    sys_put_char(key->level ? '+' : '-');
                }
            }
        }
        handler_ack(CAP_LINE);
    }
}
