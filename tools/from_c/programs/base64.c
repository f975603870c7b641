/* Base64 of RFC 4648, section 10: "f" to "foobar". */
#include "microsys.h"
#include <stddef.h>

static const char alphabet[] = "ABCDEFGHIJKLMNOPQRSTUVWXYZabcdefghijklmnopqrstuvwxyz0123456789+/";
static const char text[] = "foobar";

static void base64(const char *in, size_t length) {
    for (size_t i = 0; i < length; i += 3) {
        uint32_t group = (uint8_t)in[i] << 16;
        if (i + 1 < length)
            group |= (uint8_t)in[i + 1] << 8;
        if (i + 2 < length)
            group |= (uint8_t)in[i + 2];
        sys_put_char(alphabet[group >> 18 & 63]);
        sys_put_char(alphabet[group >> 12 & 63]);
        sys_put_char(i + 1 < length ? alphabet[group >> 6 & 63] : '=');
        sys_put_char(i + 2 < length ? alphabet[group & 63] : '=');
    }
}

THREAD main(void) {
    for (;;) {
        sys_wait(CAP_BELL);
        for (size_t length = 1; length < sizeof text; length++)
            base64(text, length);
        handler_ack(CAP_LINE);
    }
}
