/* SHA-256 of "abc", FIPS 180-4: one block, with its schedule of 64 words on the stack. */
#include "microsys.h"

static const uint32_t constants[64] = {
    0x428a2f98, 0x71374491, 0xb5c0fbcf, 0xe9b5dba5, 0x3956c25b, 0x59f111f1, 0x923f82a4, 0xab1c5ed5,
    0xd807aa98, 0x12835b01, 0x243185be, 0x550c7dc3, 0x72be5d74, 0x80deb1fe, 0x9bdc06a7, 0xc19bf174,
    0xe49b69c1, 0xefbe4786, 0x0fc19dc6, 0x240ca1cc, 0x2de92c6f, 0x4a7484aa, 0x5cb0a9dc, 0x76f988da,
    0x983e5152, 0xa831c66d, 0xb00327c8, 0xbf597fc7, 0xc6e00bf3, 0xd5a79147, 0x06ca6351, 0x14292967,
    0x27b70a85, 0x2e1b2138, 0x4d2c6dfc, 0x53380d13, 0x650a7354, 0x766a0abb, 0x81c2c92e, 0x92722c85,
    0xa2bfe8a1, 0xa81a664b, 0xc24b8b70, 0xc76c51a3, 0xd192e819, 0xd6990624, 0xf40e3585, 0x106aa070,
    0x19a4c116, 0x1e376c08, 0x2748774c, 0x34b0bcb5, 0x391c0cb3, 0x4ed8aa4a, 0x5b9cca4f, 0x682e6ff3,
    0x748f82ee, 0x78a5636f, 0x84c87814, 0x8cc70208, 0x90befffa, 0xa4506ceb, 0xbef9a3f7, 0xc67178f2,
};
static const uint32_t begin[8] = {
    0x6a09e667, 0xbb67ae85, 0x3c6ef372, 0xa54ff53a, 0x510e527f, 0x9b05688c, 0x1f83d9ab, 0x5be0cd19,
};
/* "abc", a bit of 1, and the length in bits. */
static const uint32_t block[16] = {0x61626380, [15] = 24};
static uint32_t digest[8];

static uint32_t rotated(uint32_t x, uint32_t by) {
    return x >> by | x << (32 - by);
}

static void fill_schedule(uint32_t schedule[64]) {
    for (uint32_t t = 0; t < 16; t++)
        schedule[t] = block[t];
    for (uint32_t t = 0; t < 48; t++) {
        uint32_t far = schedule[t + 1], near = schedule[t + 14];
        uint32_t sigma0 = rotated(far, 7) ^ rotated(far, 18) ^ far >> 3;
        uint32_t sigma1 = rotated(near, 17) ^ rotated(near, 19) ^ near >> 10;
        schedule[t + 16] = sigma1 + schedule[t + 9] + sigma0 + schedule[t];
    }
}

static void compress(void) {
    uint32_t schedule[64];
    fill_schedule(schedule);
    uint32_t a = digest[0], b = digest[1], c = digest[2], d = digest[3];
    uint32_t e = digest[4], f = digest[5], g = digest[6], h = digest[7];
    for (uint32_t t = 0; t < 64; t++) {
        uint32_t sum1 = rotated(e, 6) ^ rotated(e, 11) ^ rotated(e, 25);
        uint32_t first = h + sum1 + ((e & f) ^ (~e & g)) + constants[t] + schedule[t];
        uint32_t sum0 = rotated(a, 2) ^ rotated(a, 13) ^ rotated(a, 22);
        uint32_t second = sum0 + ((a & b) ^ (a & c) ^ (b & c));
        h = g, g = f, f = e, e = d + first, d = c, c = b, b = a, a = first + second;
    }
    digest[0] += a, digest[1] += b, digest[2] += c, digest[3] += d;
    digest[4] += e, digest[5] += f, digest[6] += g, digest[7] += h;
}

THREAD main(void) {
    for (;;) {
        sys_wait(CAP_BELL);
        for (uint32_t i = 0; i < 8; i++)
            digest[i] = begin[i];
        compress();
        for (uint32_t i = 0; i < 8; i++) {
            for (uint32_t byte = 0; byte < 4; byte++)
                sys_put_char(digest[i] >> (24 - 8 * byte));
        }
        handler_ack(CAP_LINE);
    }
}
