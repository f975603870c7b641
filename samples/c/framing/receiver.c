/* Decodes each frame, and puts its bytes. */
#include "microsys.h"
#include "wire.h"

static uint8_t plain[COBS_MOST];

THREAD receiver(void) {
    for (;;) {
        sys_wait(CAP_FRAMED);
        uint32_t length = cobs_decode(bytes_at(PAGE_WIRE) + CONTENT, words_at(PAGE_WIRE)[LENGTH], plain);
        length = below(COBS_MOST + 1, length);
        for (uint32_t i = 0; i < length; i++)
            sys_put_char(plain[i]);
    }
}
