/* Run-length code: pairs of a count and a byte, and back. */
#include "microsys.h"

static const uint8_t raw[24] = {5, 5, 5, 5, 0, 0, 9, 1, 1, 1, 1, 1, 1, 1, 1, 1, 1, 1, 1, 7, 7, 255, 0, 0};
static uint8_t packed[48], unpacked[24];

static unsigned pack(void) {
    unsigned out = 0, i = 0;
    for (unsigned round = 0; round < 24 && i < sizeof raw; round++) {
        uint8_t byte = raw[i];
        unsigned run = 1;
        while (i + run < sizeof raw && raw[i + run] == byte && run < 10)
            run++;
        packed[below(48, out++)] = run;
        packed[below(48, out++)] = byte;
        i += run;
    }
    return out;
}

static unsigned unpack(unsigned length) {
    unsigned out = 0;
    for (unsigned i = 0; i < length; i += 2)
        for (unsigned n = 0; n < packed[i]; n++)
            unpacked[below(24, out++)] = packed[i + 1];
    return out;
}

THREAD main(void) {
    for (;;) {
        sys_wait(CAP_BELL);
        unsigned length = below(49, pack());
        for (unsigned i = 0; i < length; i++)
            sys_put_char(packed[i]);
        unsigned back = below(25, unpack(length));
        sys_put_char(back);
        for (unsigned i = 0; i < back; i++)
            sys_put_char(unpacked[i]);
        handler_ack(CAP_LINE);
    }
}
