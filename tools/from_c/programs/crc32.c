/* CRC-32, bit by bit, of the nine digits that the catalogues of such sums give a check value for. */
#include "microsys.h"

static const char digits[9] = "123456789";

static uint32_t crc32(const char *text, uint32_t length) {
    uint32_t crc = 0xFFFFFFFF;
    for (uint32_t i = 0; i < length; i++) {
        crc ^= text[i];
        for (uint32_t bit = 0; bit < 8; bit++)
            crc = crc & 1 ? crc >> 1 ^ 0xEDB88320 : crc >> 1;
    }
    return ~crc;
}

THREAD main(void) {
    for (;;) {
        sys_wait(CAP_BELL);
        uint32_t crc = crc32(digits, sizeof digits);
        for (uint32_t byte = 0; byte < 4; byte++)
            sys_put_char(crc >> (24 - 8 * byte));
        handler_ack(CAP_LINE);
    }
}
