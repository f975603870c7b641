/* Nine rings of the bell take a byte of a message each, and the next put its CRC-8. The first
 * message is the digits 1 to 9, and the others are at random. */
#include "microsys.h"
#include "crc.h"

#include "random.h"

enum { LENGTH = 9, BYTES = 1 };

THREAD main(void) {
    uint32_t rings = 0, crc = CRC8_FIRST;
    for (;;) {
        sys_wait(CAP_BELL);
        uint32_t at = rings & 15;
        if (at == 0)
            crc = CRC8_FIRST;
        if (at < LENGTH)
            crc = crc8_with(crc, rings < LENGTH ? '1' + at : next_random());
        else if (at < LENGTH + BYTES)
            sys_put_char(crc);
        rings++;
        handler_ack(CAP_LINE);
    }
}
