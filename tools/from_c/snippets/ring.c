/* At each ring of the bell: puts a word in three of four cases, and takes one in two of four; so the ring fills up. */
#include "microsys.h"
#define RING_WORDS 8
#include "ring.h"

#include "random.h"

static volatile uint32_t shared[RING_SPACE];

THREAD main(void) {
    for (;;) {
        sys_wait(CAP_BELL);
        uint32_t random = next_random();
        if (random & 3)
            sys_put_char(ring_put(shared, random >> 8) ? 'p' : 'f');
        uint32_t word = 0;
        if (random & 4)
            sys_put_char(ring_take(shared, &word) ? word & 0xFF : 'e');
        handler_ack(CAP_LINE);
    }
}
