/* Fletcher-16, an XOR, and the Internet's checksum over a packet with an odd length. */
#include "microsys.h"

static uint16_t fletcher16(const uint8_t *data, int length) {
    uint16_t a = 0, b = 0;
    for (int i = 0; i < length; ++i) {
        a = (a + data[i]) % 255;
        b = (b + a) % 255;
    }
    return b << 8 | a;
}

static uint16_t internet(const uint8_t *data, int length) {
    uint32_t sum = 0;
    while (length > 1) {
        AT_MOST(16);
        sum += data[0] << 8 | data[1];
        data += 2;
        length -= 2;
    }
    if (length)
        sum += data[0] << 8;
    while (sum >> 16) {
        AT_MOST(4);
        sum = (sum & 0xFFFF) + (sum >> 16);
    }
    return ~sum;
}

static void put16(uint16_t value) {
    sys_put_char(value >> 8);
    sys_put_char(value & 0xFF);
}

THREAD main(void) {
    static const uint8_t packet[] = {0x45, 0x00, 0x00, 0x73, 0x00, 0x00, 0x40, 0x00, 0x40, 0x11, 0xc0, 0xa8, 0x01};
    for (;;) {
        sys_wait(CAP_BELL);
        put16(fletcher16(packet, sizeof packet));
        put16(internet(packet, sizeof packet));
        uint8_t all = 0;
        for (const uint8_t *p = packet; p != packet + sizeof packet; p++)
            all ^= *p;
        sys_put_char(all);
        handler_ack(CAP_LINE);
    }
}
