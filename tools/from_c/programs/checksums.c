/* Fletcher-16, Adler-32 and the Internet checksum (RFC 1071) of a text. */
#include "microsys.h"

static const uint8_t text[] = "Wikipedia";

static uint16_t fletcher16(const uint8_t *data, unsigned length) {
    uint16_t sum1 = 0, sum2 = 0;
    for (unsigned i = 0; i < length; i++) {
        sum1 = (sum1 + data[i]) % 255;
        sum2 = (sum2 + sum1) % 255;
    }
    return sum2 << 8 | sum1;
}

static uint32_t adler32(const uint8_t *data, unsigned length) {
    uint32_t a = 1, b = 0;
    for (unsigned i = 0; i < length; i++) {
        a = (a + data[i]) % 65521;
        b = (b + a) % 65521;
    }
    return b << 16 | a;
}

static uint16_t internet(const uint8_t *data, unsigned length) {
    uint32_t sum = 0;
    for (unsigned i = 0; i < length - 1; i += 2)
        sum += data[i] << 8 | data[i + 1];
    if (length & 1)
        sum += data[length - 1] << 8;
    for (unsigned round = 0; round < 2 && sum >> 16; round++)
        sum = (sum & 0xffff) + (sum >> 16);
    return ~sum;
}

static void put32(uint32_t word) {
    for (int i = 4; i > 0; i--)
        sys_put_char(word >> (8 * (i - 1)));
}

THREAD main(void) {
    for (;;) {
        sys_wait(CAP_BELL);
        put32(fletcher16(text, 9));
        put32(adler32(text, 9));
        put32(internet(text, 9));
        handler_ack(CAP_LINE);
    }
}
