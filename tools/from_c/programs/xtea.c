/* XTEA (Needham and Wheeler, 1997): a block of eight letters enciphered, and deciphered again. */
#include "microsys.h"

enum { ROUNDS = 32 };
static const uint32_t delta = 0x9E3779B9;
static const uint32_t key[4] = {0x00010203, 0x04050607, 0x08090a0b, 0x0c0d0e0f};

struct block {
    uint32_t left, right;
};

static struct block enciphered(struct block it) {
    uint32_t sum = 0;
    for (uint32_t round = 0; round < ROUNDS; round++) {
        it.left += ((it.right << 4 ^ it.right >> 5) + it.right) ^ (sum + key[sum & 3]);
        sum += delta;
        it.right += ((it.left << 4 ^ it.left >> 5) + it.left) ^ (sum + key[sum >> 11 & 3]);
    }
    return it;
}

static struct block deciphered(struct block it) {
    uint32_t sum = delta * ROUNDS;
    for (uint32_t round = 0; round < ROUNDS; round++) {
        it.right -= ((it.left << 4 ^ it.left >> 5) + it.left) ^ (sum + key[sum >> 11 & 3]);
        sum -= delta;
        it.left -= ((it.right << 4 ^ it.right >> 5) + it.right) ^ (sum + key[sum & 3]);
    }
    return it;
}

static void put_word(uint32_t word) {
    for (uint32_t byte = 0; byte < 4; byte++)
        sys_put_char(word >> (24 - 8 * byte));
}

THREAD main(void) {
    for (;;) {
        sys_wait(CAP_BELL);
        struct block secret = enciphered((struct block){0x41424344, 0x45464748});
        put_word(secret.left);
        put_word(secret.right);
        struct block plain = deciphered(secret);
        put_word(plain.left);
        put_word(plain.right);
        handler_ack(CAP_LINE);
    }
}
