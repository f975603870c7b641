/* Consistent Overhead Byte Stuffing: a frame is written without zeros, and read back. */
#include "microsys.h"
#include <stddef.h>

static const uint8_t frame[] = {0x11, 0x22, 0x00, 0x33, 0x00, 0x00, 0x44, 0x55, 0x66, 0x00};
static uint8_t coded[sizeof frame + 2], decoded[sizeof frame + 2];

static size_t cobs_encode(const uint8_t *data, size_t length, uint8_t *out) {
    size_t code_at = 0, at = 1;
    uint8_t code = 1;
    for (size_t i = 0; i < length; i++) {
        if (data[i] == 0) {
            out[below(12, code_at)] = code;
            code_at = at++;
            code = 1;
        } else {
            out[below(12, at++)] = data[i];
            code++;
        }
    }
    out[below(12, code_at)] = code;
    return at;
}

static size_t cobs_decode(const uint8_t *in, size_t length, uint8_t *out) {
    size_t at = 0;
    uint8_t code = 0xFF, left = 0;
    for (size_t i = 0; i < length; i++) {
        if (left > 0) {
            out[below(12, at++)] = in[i];
            left--;
            continue;
        }
        if (code != 0xFF)
            out[below(12, at++)] = 0;
        code = in[i];
        left = code - 1;
    }
    return at;
}

THREAD main(void) {
    for (;;) {
        sys_wait(CAP_BELL);
        size_t length = below(13, cobs_encode(frame, sizeof frame, coded));
        for (size_t i = 0; i < length; i++)
            sys_put_char(coded[i]);
        size_t back = below(13, cobs_decode(coded, length, decoded));
        sys_put_char(back);
        for (size_t i = 0; i < back; i++)
            sys_put_char(decoded[i]);
        handler_ack(CAP_LINE);
    }
}
