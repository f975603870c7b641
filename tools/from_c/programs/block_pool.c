/* A pool of 32 blocks: a bit of a word for each, the lowest free one is given. */
#include "microsys.h"
#include <stdbool.h>

#define BLOCKS 32
#define NONE 0xff

static uint32_t used;

static uint8_t block_alloc(void) {
    for (uint32_t i = 0; i < BLOCKS; i++) {
        if (!(used & (1u << i))) {
            used |= 1u << i;
            return i;
        }
    }
    return NONE;
}

static bool block_free(uint8_t block) {
    if (block >= BLOCKS || !(used & (1u << block)))
        return false;
    used &= ~(1u << block);
    return true;
}

THREAD main(void) {
    for (;;) {
        sys_wait(CAP_BELL);
        for (int i = 0; i < 34; i++)
            sys_put_char(block_alloc());
        sys_put_char(block_free(7));
        sys_put_char(block_free(7));
        sys_put_char(block_free(32));
        sys_put_char(block_free(3));
        sys_put_char(block_alloc());
        sys_put_char(block_alloc());
        sys_put_char(block_alloc());
        handler_ack(CAP_LINE);
    }
}
