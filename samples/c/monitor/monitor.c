/* At each beat: takes a sample into a history of four, and puts 'M', the median, the mean and a CRC-8 of these two. */
#include "microsys.h"

enum { KEPT = 4 };
static uint8_t history[KEPT];
static uint32_t beats;

/* CRC-8 with the polynomial x^8 + x^2 + x + 1, by nibbles. */
static const uint8_t crc_table[16] = {
    0x00, 0x07, 0x0E, 0x09, 0x1C, 0x1B, 0x12, 0x15, 0x38, 0x3F, 0x36, 0x31, 0x24, 0x23, 0x2A, 0x2D,
};

static uint8_t crc_with(uint8_t crc, uint8_t byte) {
    crc ^= byte;
    for (uint32_t nibble = 0; nibble < 2; nibble++)
        crc = (uint8_t)(crc << 4) ^ crc_table[crc >> 4];
    return crc;
}

/* Insertion sort. */
static void sort(uint8_t values[KEPT]) {
    for (uint32_t i = 1; i < KEPT; i++) {
        uint8_t moved = values[i];
        uint32_t at = i;
        for (; at > 0 && values[at - 1] > moved; at--)
            values[at] = values[at - 1];
        values[at] = moved;
    }
}

static uint8_t median(void) {
    uint8_t sorted[KEPT];
    for (uint32_t i = 0; i < KEPT; i++)
        sorted[i] = history[i];
    sort(sorted);
    return (sorted[KEPT / 2 - 1] + sorted[KEPT / 2]) / 2;
}

static uint8_t mean(void) {
    uint32_t sum = 0;
    for (uint32_t i = 0; i < KEPT; i++)
        sum += history[i];
    return sum / KEPT;
}

THREAD monitor(void) {
    for (;;) {
        sys_wait(CAP_BEAT);
        uint32_t place = beats++ % KEPT;
        history[place] = words_at(PAGE_SAMPLES)[place];
        uint8_t middle = median(), average = mean();
        sys_put_char('M');
        sys_put_char(middle);
        sys_put_char(average);
        sys_put_char(crc_with(crc_with(0, middle), average));
        sys_signal(CAP_ALIVE);
        handler_ack(CAP_BEAT_LINE1);
    }
}
