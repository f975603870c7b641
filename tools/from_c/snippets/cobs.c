/* At every 32nd ring of the bell a frame is coded and decoded; at the rings between, what came of it is put: the bytes of
 * the code, and whether they decode to the frame. */
#include "microsys.h"
#include <stdbool.h>
#define COBS_MOST 16
#include "cobs.h"

#include "random.h"

/* The first bytes of a packet of the Internet Protocol. */
static const uint8_t packet[12] = {0x45, 0, 0, 0x2C, 0x4C, 0x79, 0, 0, 0x40, 0x06, 0x4F, 0x37};
static uint8_t plain[COBS_MOST], coded[COBS_CODED], decoded[COBS_MOST];
static uint32_t length, coded_length, decoded_length;

static void next_frame(uint32_t number) {
    uint32_t random = next_random();
    length = number == 0 ? sizeof packet : random & 15;
    for (uint32_t i = 0; i < COBS_MOST; i++) {
        random = random << 1 | random >> 31;
        plain[i] = number == 0 && i < sizeof packet ? packet[i] : random & 4 ? random : 0;
    }
}

static bool is_as_before(void) {
    bool is_same = decoded_length == length;
    for (uint32_t i = 0; i < COBS_MOST; i++)
        is_same = is_same && (i >= length || decoded[i] == plain[i]);
    return is_same;
}

THREAD main(void) {
    uint32_t rings = 0;
    for (;;) {
        sys_wait(CAP_BELL);
        uint32_t at = rings & 31;
        if (at == 0)
            next_frame(rings);
        if (at == 1) {
            coded_length = cobs_encode(plain, length, coded);
            decoded_length = cobs_decode(coded, coded_length, decoded);
        }
        if (at >= 2 && at - 2 < coded_length)
            sys_put_char(coded[below(COBS_CODED, at - 2)]);
        if (at == 31)
            sys_put_char(is_as_before() ? 'y' : 'n');
        rings++;
        handler_ack(CAP_LINE);
    }
}
