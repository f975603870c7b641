/* Decodes UTF-8, and puts the code points in three bytes; what is none becomes U+FFFD. */
#include "microsys.h"

static const uint8_t text[] = {'A', 0xC3, 0xA9, 0xE2, 0x82, 0xAC, 0xF0, 0x9F, 0x98, 0x80, 0xFF, 0xC3, 'z', 0x80, '!'};

static void put_point(uint32_t point) {
    sys_put_char(point >> 16);
    sys_put_char(point >> 8);
    sys_put_char(point);
}

THREAD main(void) {
    for (;;) {
        sys_wait(CAP_BELL);
        uint32_t point = 0, missing = 0;
        for (unsigned i = 0; i < sizeof text; i++) {
            uint8_t byte = text[i];
            if (missing > 0 && (byte & 0xC0) == 0x80) {
                point = point << 6 | (byte & 0x3F);
                if (--missing == 0)
                    put_point(point);
                continue;
            }
            if (missing > 0)
                put_point(0xFFFD);
            missing = 0;
            if (byte < 0x80) {
                put_point(byte);
            } else if ((byte & 0xE0) == 0xC0) {
                point = byte & 0x1F;
                missing = 1;
            } else if ((byte & 0xF0) == 0xE0) {
                point = byte & 0x0F;
                missing = 2;
            } else if ((byte & 0xF8) == 0xF0) {
                point = byte & 0x07;
                missing = 3;
            } else {
                put_point(0xFFFD);
            }
        }
        handler_ack(CAP_LINE);
    }
}
