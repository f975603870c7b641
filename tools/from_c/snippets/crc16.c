/* Nine rings of the bell take a byte of a message each, and the next put the two bytes of its CRC-16. The first
 * message is the digits 1 to 9, and the others are at random. */
#include "microsys.h"
#include "crc.h"

#include "random.h"

enum { LENGTH = 9, BYTES = 2 };

THREAD main(void) {
    uint32_t rings = 0, crc = CRC16_FIRST;
    for (;;) {
        sys_wait(CAP_BELL);
        uint32_t at = rings & 15;
        if (at == 0)
            crc = CRC16_FIRST;
        if (at < LENGTH)
            crc = crc16_with(crc, rings < LENGTH ? '1' + at : next_random());
        else if (at < LENGTH + BYTES)
            sys_put_char(crc >> (8 - 8 * (at - LENGTH)));
        rings++;
        handler_ack(CAP_LINE);
    }
}
