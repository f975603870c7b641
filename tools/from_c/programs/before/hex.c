/* Reads hexadecimal numbers between commas, and writes each with eight digits. */
#include "microsys.h"

static const char text[] = "1f,DEADbeef,0,7fffffff,x1,12345";
static const char digits[] = "0123456789ABCDEF";

static int digit_of(char c) {
    if (c >= '0' && c <= '9')
        return c - '0';
    if (c >= 'a' && c <= 'f')
        return c - 'a' + 10;
    if (c >= 'A' && c <= 'F')
        return c - 'A' + 10;
    return -1;
}

static void put_hex(uint32_t word) {
    for (int shift = 28; shift >= 0; shift -= 4)
        sys_put_char(digits[(word >> shift) & 0xf]);
}

THREAD main(void) {
    for (;;) {
        sys_wait(CAP_BELL);
        uint32_t word = 0;
        for (const char *p = text; *p; p++) {
            if (*p == ',') {
                put_hex(word);
                word = 0;
                continue;
            }
            int digit = digit_of(*p);
            if (digit < 0)
                sys_put_char('?');
            else
                word = word << 4 | (uint32_t)digit;
        }
        put_hex(word);
        handler_ack(CAP_LINE);
    }
}
