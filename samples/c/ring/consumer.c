/* Puts what is in the ring, each time that it is told of more. */
#include "microsys.h"
#include "shared.h"

THREAD consumer(void) {
    for (;;) {
        sys_wait(CAP_FILLED);
        uint32_t letter = 0;
        for (uint32_t i = 0; i < RING_WORDS && ring_take(words_at(PAGE_SHARED), &letter); i++)
            sys_put_char(letter);
    }
}
