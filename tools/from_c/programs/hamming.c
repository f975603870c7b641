/* Hamming (7,4): each nibble is coded, one bit of it is turned, and it is read back. */
#include "microsys.h"

static uint8_t parity(uint8_t bits) {
    bits ^= bits >> 4;
    bits ^= bits >> 2;
    bits ^= bits >> 1;
    return bits & 1;
}

/* Places 1, 2 and 4 have the parities; bit n of the word is place n + 1. */
static uint8_t encode(uint8_t nibble) {
    uint8_t word = (nibble & 1) << 2 | (nibble & 0xe) << 3;
    word |= parity(word & 0x54);
    word |= parity(word & 0x64) << 1;
    word |= parity(word & 0x70) << 3;
    return word;
}

static uint8_t decode(uint8_t word) {
    uint8_t syndrome = parity(word & 0x55) | parity(word & 0x66) << 1 | parity(word & 0x78) << 2;
    if (syndrome != 0)
        word ^= 1 << (syndrome - 1);
    return (word >> 2 & 1) | (word >> 3 & 0xe);
}

THREAD main(void) {
    for (;;) {
        sys_wait(CAP_BELL);
        for (uint32_t nibble = 0; nibble < 16; nibble++) {
            uint8_t word = encode(nibble);
            sys_put_char(word);
            sys_put_char(decode(word ^ 1 << nibble % 7));
        }
        handler_ack(CAP_LINE);
    }
}
