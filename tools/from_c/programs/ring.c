/* A ring of eight bytes: what comes while it is full is dropped and counted. Its places are kept between the rings of
 * the bell, so they are variables in memory; `& 7` keeps them below 8. */
#include "microsys.h"

enum { SIZE = 8 };
static uint8_t ring[SIZE];
static uint32_t first, count, dropped;

static void put_in(uint8_t byte) {
    if (count < SIZE) {
        ring[(first + count) & (SIZE - 1)] = byte;
        count++;
    } else {
        dropped++;
    }
}

/* The byte that came first, or '-' where there is none. */
static uint8_t take_out(void) {
    if (count == 0)
        return '-';
    uint8_t byte = ring[first & (SIZE - 1)];
    first++;
    count--;
    return byte;
}

THREAD main(void) {
    for (;;) {
        sys_wait(CAP_BELL);
        for (uint32_t i = 0; i < 10; i++)
            put_in('a' + i);
        for (uint32_t i = 0; i < 5; i++)
            sys_put_char(take_out());
        for (uint32_t i = 0; i < 3; i++)
            put_in('A' + i);
        for (uint32_t i = 0; i < 7; i++)
            sys_put_char(take_out());
        sys_put_char('0' + dropped);
        handler_ack(CAP_LINE);
    }
}
