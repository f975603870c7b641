/* Makes a frame of what the office has sent: the whole page, PAYLOAD bytes at most. */
#include "wire.h"
#define COBS_MOST (PAYLOAD + CRC)
#include "cobs.h"

static uint8_t plain[PAYLOAD + CRC];

THREAD framer(void) {
    for (;;) {
        sys_wait(CAP_SENT);
        uint32_t length = below(PAYLOAD + 1, words_at(PAGE_OFFICE_IN)[LENGTH]);
        uint32_t crc = CRC32_FIRST;
        for (uint32_t i = 0; i < length; i++) {
            uint32_t byte = bytes_at(PAGE_OFFICE_IN)[CONTENT + i];
            plain[i] = byte;
            crc = crc32_with(crc, byte);
        }
        crc = ~crc;
        for (uint32_t i = 0; i < CRC; i++)
            plain[below(PAYLOAD + CRC, length + i)] = crc >> 8 * i;
        uint32_t coded = below(COBS_CODED + 1, cobs_encode(plain, length + CRC, bytes_at(PAGE_LINE_OUT) + CONTENT));
        bytes_at(PAGE_LINE_OUT)[CONTENT + coded] = 0;
        words_at(PAGE_LINE_OUT)[LENGTH] = coded + 1;
        handler_ack(CAP_SENT_LINE1);
    }
}
