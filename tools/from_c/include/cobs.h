/* Consistent overhead byte stuffing: frames without zeros, so that a zero may part them on a line.
 *
 *     #define COBS_MOST 32
 *     #include "cobs.h"
 *     static uint8_t plain[COBS_MOST], coded[COBS_CODED];
 *     uint32_t length = cobs_encode(plain, 12, coded);
 *     uint32_t back = cobs_decode(coded, length, plain);
 *
 * Limits: COBS_MOST is how many bytes a frame has at most, and 64 where it is not said; `plain` has so many, and `coded`
 * COBS_CODED. A length above its limit counts as 0. What is no coded frame is decoded to no bytes; a code does
 * not lead out of the arrays, whatever it is.
 * Budget of a thread that encodes and decodes a frame of at most 16 bytes between two waits: 732. */
#ifndef MICROSYS_COBS_H
#define MICROSYS_COBS_H

#include "microsys.h"

#ifndef COBS_MOST
#define COBS_MOST 64
#endif

/* How many bytes a code is followed by at most: 254, of which none is 0. */
enum { COBS_RUN = 255, COBS_CODED = COBS_MOST + COBS_MOST / 254 + 1 };

/* Codes a frame, and gives how many bytes that are. */
MICROSYS_INLINE uint32_t cobs_encode(const volatile uint8_t *plain, uint32_t length, volatile uint8_t *coded) {
    uint32_t code_at = 0, at = 1, code = 1;
    length = below(COBS_MOST + 1, length);
    for (uint32_t i = 0; i < length; i++) {
        uint32_t byte = plain[i];
        /* A run of the greatest length has ended, and more follows. */
        if (code == COBS_RUN) {
            coded[below(COBS_CODED, code_at)] = COBS_RUN;
            code_at = at++;
            code = 1;
        }
        if (byte == 0) {
            coded[below(COBS_CODED, code_at)] = code;
            code_at = at++;
            code = 1;
        } else {
            coded[below(COBS_CODED, at)] = byte;
            at++;
            code++;
        }
    }
    coded[below(COBS_CODED, code_at)] = code;
    return at;
}

/* Decodes a frame, and gives how many bytes that are; 0 for what is no frame. */
MICROSYS_INLINE uint32_t cobs_decode(const volatile uint8_t *coded, uint32_t length, volatile uint8_t *plain) {
    uint32_t at = 0, left = 0, is_zero_due = 0;
    length = below(COBS_CODED + 1, length);
    for (uint32_t i = 0; i < length; i++) {
        uint32_t byte = coded[i];
        if (byte == 0)
            return 0;
        if (left == 0) {
            if (is_zero_due) {
                if (at >= COBS_MOST)
                    return 0;
                plain[at] = 0;
                at++;
            }
            left = byte - 1;
            is_zero_due = byte != COBS_RUN;
        } else {
            if (at >= COBS_MOST)
                return 0;
            plain[at] = byte;
            at++;
            left--;
        }
    }
    return left == 0 ? at : 0;
}

#endif
