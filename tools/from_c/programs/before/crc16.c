/* CRC-16/CCITT-FALSE and CRC-16/MODBUS, bit by bit, of the text that catalogues of CRCs use. */
#include "microsys.h"

static const char text[] = "123456789";

static uint16_t crc_ccitt(const char *data, unsigned length) {
    uint16_t crc = 0xFFFF;
    while (length--) {
        crc ^= (uint16_t)(uint8_t)*data++ << 8;
        for (int bit = 0; bit < 8; bit++)
            crc = crc & 0x8000 ? (crc << 1) ^ 0x1021 : crc << 1;
    }
    return crc;
}

static uint16_t crc_modbus(const char *data, unsigned length) {
    uint16_t crc = 0xFFFF;
    while (length--) {
        crc ^= (uint8_t)*data++;
        for (int bit = 0; bit < 8; bit++)
            crc = crc & 1 ? (crc >> 1) ^ 0xA001 : crc >> 1;
    }
    return crc;
}

static void put16(uint16_t word) {
    sys_put_char(word >> 8);
    sys_put_char(word & 0xff);
}

THREAD main(void) {
    for (;;) {
        sys_wait(CAP_BELL);
        put16(crc_ccitt(text, sizeof text - 1));
        put16(crc_modbus(text, sizeof text - 1));
        handler_ack(CAP_LINE);
    }
}
