/* Numbers in decimal: each digit is a remainder of a division by ten, of which there are ten at most. */
#include "microsys.h"

enum { MOST = 10 };

static void put_number(uint32_t number) {
    char digits[MOST];
    uint32_t count = 0;
    for (uint32_t i = 0; i < MOST; i++) {
        struct division by_ten = division(number, 10);
        digits[i] = '0' + by_ten.remainder;
        number = by_ten.quotient;
        if (digits[i] != '0')
            count = i;
    }
    /* The first digit that is not 0 stands at `count`; what is above it is left out. */
    for (uint32_t i = 0; i < MOST; i++) {
        uint32_t at = MOST - 1 - i;
        if (at <= count)
            sys_put_char(digits[at]);
    }
    sys_put_char(' ');
}

THREAD main(void) {
    uint32_t rings = 0;
    for (;;) {
        sys_wait(CAP_BELL);
        rings++;
        put_number(0);
        put_number(rings);
        put_number(1000000);
        put_number(0xFFFFFFFF);
        handler_ack(CAP_LINE);
    }
}
