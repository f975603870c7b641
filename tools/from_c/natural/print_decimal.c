/* Numbers in decimal, with a sign, as printf would. */
#include "microsys.h"

static void put_string(const char *s) {
    while (*s) {
        AT_MOST(16);
        sys_put_char(*s++);
    }
}

static void put_unsigned(uint32_t value) {
    char digits[10];
    int n = 0;
    do {
        AT_MOST(10);
        digits[n++] = '0' + value % 10;
        value /= 10;
    } while (value);
    while (n > 0)
        sys_put_char(digits[--n]);
}

static void put_signed(int32_t value) {
    if (value < 0) {
        sys_put_char('-');
        put_unsigned(-(uint32_t)value);
    } else {
        put_unsigned(value);
    }
}

THREAD main(void) {
    static const int32_t samples[] = {0, 7, -42, 123456, -2147483647 - 1};
    for (;;) {
        sys_wait(CAP_BELL);
        for (unsigned i = 0; i < sizeof samples / sizeof *samples; i++) {
            put_string("t=");
            put_signed(samples[i]);
            put_string("\n");
        }
        handler_ack(CAP_LINE);
    }
}
