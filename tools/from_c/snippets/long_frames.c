/* At each ring of the bell: a frame of some 254 bytes with a zero in one of them, or none, is coded and decoded; of the
 * code its length is put, with the codes at its first byte and behind the first run. */
#include "microsys.h"
#include <stdbool.h>
#define COBS_MOST 520
#include "cobs.h"

static uint8_t plain[COBS_MOST], coded[COBS_CODED], decoded[COBS_MOST];

static uint32_t length_of(uint32_t rings) {
    return rings < 16 ? 248 + rings : 502 + (rings & 15);
}

THREAD main(void) {
    uint32_t rings = 0;
    for (;;) {
        sys_wait(CAP_BELL);
        uint32_t length = below(COBS_MOST + 1, length_of(rings));
        for (uint32_t i = 0; i < length; i++)
            plain[i] = i == rings * 8 ? 0 : i | 1;
        uint32_t coded_length = cobs_encode(plain, length, coded);
        uint32_t decoded_length = cobs_decode(coded, coded_length, decoded);
        bool is_same = decoded_length == length;
        for (uint32_t i = 0; i < length; i++)
            is_same = is_same && decoded[i] == plain[i];
        sys_put_char(coded_length >> 8);
        sys_put_char(coded_length);
        sys_put_char(coded[0]);
        sys_put_char(coded[255]);
        sys_put_char(is_same ? 'y' : 'n');
        rings++;
        handler_ack(CAP_LINE);
    }
}
