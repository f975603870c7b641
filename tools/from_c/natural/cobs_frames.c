/* Frames without zeros (COBS), coded and decoded again. */
#include "microsys.h"

static const uint8_t packet[] = {0x11, 0x22, 0x00, 0x33, 0x00, 0x00, 0x44};

static uint32_t encode(const uint8_t *from, uint32_t length, uint8_t *to) {
    uint8_t *start = to, *code = to++;
    uint8_t count = 1;
    while (length--) {
        AT_MOST(16);
        if (*from) {
            *to++ = *from;
            count++;
        }
        if (!*from++ || count == 0xFF) {
            *code = count;
            code = to++;
            count = 1;
        }
    }
    *code = count;
    return to - start;
}

static uint32_t decode(const uint8_t *from, uint32_t length, uint8_t *to) {
    const uint8_t *end = from + length;
    uint8_t *start = to;
    while (from < end) {
        AT_MOST(16);
        uint8_t code = *from++;
        for (uint8_t i = 1; i < code; i++) {
            AT_MOST(16);
            *to++ = *from++;
        }
        if (code != 0xFF && from < end)
            *to++ = 0;
    }
    return to - start;
}

THREAD main(void) {
    static uint8_t frame[16], back[16];
    for (;;) {
        sys_wait(CAP_BELL);
        uint32_t coded = encode(packet, sizeof packet, frame);
        for (uint32_t i = 0; i < coded; i++)
            sys_put_char(frame[i]);
        uint32_t length = decode(frame, coded, back);
        for (uint32_t i = 0; i < length; i++)
            sys_put_char(back[i]);
        handler_ack(CAP_LINE);
    }
}
