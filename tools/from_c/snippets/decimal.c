/* At each ring of the bell: a number, and a space. */
#include "microsys.h"
#include "decimal.h"

#include "random.h"

static const uint32_t numbers[8] = {0, 9, 10, 99, 100, 1000000000, 4294967289, 4294967295};

THREAD main(void) {
    uint32_t rings = 0;
    for (;;) {
        sys_wait(CAP_BELL);
        uint32_t random = next_random();
        put_decimal(rings < 8 ? numbers[rings] : random >> (random & 31));
        sys_put_char(' ');
        rings++;
        handler_ack(CAP_LINE);
    }
}
