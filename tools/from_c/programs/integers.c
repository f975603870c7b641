/* Signed numbers as decimal text. */
#include "microsys.h"

static const int32_t numbers[] = {0, 7, -7, 1234567890, -2147483647 - 1, 2147483647, -10, 100};

static void put_int(int32_t value) {
    char buffer[12];
    int n = 0;
    uint32_t rest = value < 0 ? -(uint32_t)value : (uint32_t)value;
    do {
        buffer[n++] = '0' + rest % 10;
        rest /= 10;
    } while (rest != 0 && n < 10);
    if (value < 0)
        buffer[n++] = '-';
    for (; n > 0; n--)
        sys_put_char(buffer[n - 1]);
}

THREAD main(void) {
    for (;;) {
        sys_wait(CAP_BELL);
        for (unsigned i = 0; i < sizeof numbers / sizeof numbers[0]; i++) {
            put_int(numbers[i]);
            sys_put_char('\n');
        }
        handler_ack(CAP_LINE);
    }
}
