/* Keys that bounce: a key has changed when four samples, one after the other, read other than what it was. All keys are
 * counted at once, two bits for each.
 *
 *     static struct debounced keys;
 *     uint32_t changed = debounce(&keys, words_at(PAGE_KEYS)[0]);      keys.state has the keys that are down
 *
 * Limits: up to 32 keys, a bit each; they are up at first. Sample at equal times, some 5 ms apart.
 * Budget of a thread that takes a sample between two waits: 44. */
#ifndef MICROSYS_DEBOUNCE_H
#define MICROSYS_DEBOUNCE_H

#include "microsys.h"

/* What the keys are, and for each how many samples read otherwise since: its bit of `low` and twice that of `high`. */
struct debounced {
    uint32_t state, low, high;
};

/* The keys that have changed with this sample. */
MICROSYS_INLINE uint32_t debounce(struct debounced *keys, uint32_t sample) {
    uint32_t other = sample ^ keys->state;
    uint32_t changed = other & keys->low & keys->high;
    keys->high = (keys->high ^ keys->low) & other & ~changed;
    keys->low = ~keys->low & other & ~changed;
    keys->state ^= changed;
    return changed;
}

#endif
