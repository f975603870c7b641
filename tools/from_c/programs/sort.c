/* Insertion sort of eight numbers, and their median. */
#include "microsys.h"

enum { COUNT = 8 };
static const uint8_t samples[COUNT] = {170, 3, 255, 18, 0, 99, 64, 18};

static void sort(uint8_t numbers[COUNT]) {
    for (uint32_t i = 1; i < COUNT; i++) {
        uint8_t moved = numbers[i];
        uint32_t at = i;
        for (; at > 0; at--) {
            if (numbers[at - 1] <= moved)
                break;
            numbers[at] = numbers[at - 1];
        }
        numbers[at] = moved;
    }
}

THREAD main(void) {
    for (;;) {
        sys_wait(CAP_BELL);
        uint8_t numbers[COUNT];
        for (uint32_t i = 0; i < COUNT; i++)
            numbers[i] = samples[i];
        sort(numbers);
        for (uint32_t i = 0; i < COUNT; i++)
            sys_put_char(numbers[i]);
        sys_put_char((numbers[3] + numbers[4]) / 2);
        handler_ack(CAP_LINE);
    }
}
