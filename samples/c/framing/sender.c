/* At each beat: a packet of twelve bytes becomes a frame, which is put. */
#include "microsys.h"
#include "wire.h"

static const uint8_t packet[12] = {0x45, 0, 0, 0x2C, 0x4C, 0x79, 0, 0, 0x40, 0x06, 0x4F, 0x37};

THREAD sender(void) {
    for (;;) {
        sys_wait(CAP_BEAT);
        uint32_t length = cobs_encode(packet, sizeof packet, bytes_at(PAGE_WIRE) + CONTENT);
        length = below(COBS_CODED + 1, length);
        words_at(PAGE_WIRE)[LENGTH] = length;
        for (uint32_t i = 0; i < length; i++)
            sys_put_char(bytes_at(PAGE_WIRE)[CONTENT + i]);
        sys_signal(CAP_FRAMED);
        handler_ack(CAP_BEAT_LINE1);
    }
}
