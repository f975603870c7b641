/* CRC-32 by a table that is made at the start. */
#include "microsys.h"

static uint32_t table[256];

static void make_table(void) {
    for (uint32_t i = 0; i < 256; i++) {
        uint32_t crc = i;
        for (int bit = 8; bit > 0; bit--)
            crc = crc & 1 ? crc >> 1 ^ 0xEDB88320 : crc >> 1;
        table[i] = crc;
    }
}

static uint32_t crc32(const uint8_t *data, uint32_t length) {
    uint32_t crc = 0xFFFFFFFF;
    for (uint32_t i = 0; i < length; i++)
        crc = crc >> 8 ^ table[(crc ^ data[i]) & 0xFF];
    return ~crc;
}

THREAD main(void) {
    static const uint8_t text[] = "123456789";
    make_table();
    for (;;) {
        sys_wait(CAP_BELL);
        uint32_t crc = crc32(text, sizeof text - 1);
        for (int shift = 24; shift >= 0; shift -= 8)
            sys_put_char(crc >> shift);
        handler_ack(CAP_LINE);
    }
}
