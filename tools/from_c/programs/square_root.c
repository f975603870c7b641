/* Integer square roots, a bit of the root at a time. */
#include "microsys.h"

static const uint32_t squares[6] = {0, 15, 16, 10000, 1234567, 0xFFFFFFFF};

static uint32_t root_of(uint32_t number) {
    uint32_t root = 0, bit = 0x40000000;
    for (uint32_t step = 0; step < 16; step++) {
        if (number >= root + bit) {
            number -= root + bit;
            root = (root >> 1) + bit;
        } else {
            root >>= 1;
        }
        bit >>= 2;
    }
    return root;
}

THREAD main(void) {
    for (;;) {
        sys_wait(CAP_BELL);
        for (uint32_t i = 0; i < 6; i++) {
            uint32_t root = root_of(squares[i]);
            sys_put_char(root >> 8);
            sys_put_char(root);
        }
        handler_ack(CAP_LINE);
    }
}
