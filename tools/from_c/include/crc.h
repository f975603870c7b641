/* Cyclic redundancy checks, bit by bit: they need no table, and so no page of data.
 *
 *     uint32_t crc = CRC32_FIRST;
 *     for (uint32_t i = 0; i < 9; i++)
 *         crc = crc32_with(crc, bytes[i]);
 *     crc = crc32_last(crc);
 *
 * Limits: none but the loop's, which has to have an end that the verifier can see.
 * Budget of a thread that takes a byte into a CRC-32 between two waits: 81; into a CRC-16 or a CRC-8: 83. */
#ifndef MICROSYS_CRC_H
#define MICROSYS_CRC_H

#include "microsys.h"

/* CRC-32 of Ethernet, ZIP and PNG: 0xCBF43926 for the digits 1 to 9. */
#define CRC32_FIRST 0xFFFFFFFFu

/* The remainder with a byte more. */
MICROSYS_INLINE uint32_t crc32_with(uint32_t crc, uint8_t byte) {
    crc ^= byte;
    for (uint32_t bit = 0; bit < 8; bit++)
        crc = crc & 1 ? crc >> 1 ^ 0xEDB88320 : crc >> 1;
    return crc;
}

/* The check value of all bytes. */
MICROSYS_INLINE uint32_t crc32_last(uint32_t crc) {
    return ~crc;
}

/* CRC-16/CCITT-FALSE: 0x29B1 for the digits 1 to 9. */
#define CRC16_FIRST 0xFFFFu

/* The remainder with a byte more, which is the check value. */
MICROSYS_INLINE uint16_t crc16_with(uint16_t crc, uint8_t byte) {
    uint32_t rest = crc ^ (uint32_t)byte << 8;
    for (uint32_t bit = 0; bit < 8; bit++)
        rest = rest & 0x8000 ? rest << 1 ^ 0x1021 : rest << 1;
    return (uint16_t)rest;
}

/* CRC-8/SMBUS, with the polynomial x^8 + x^2 + x + 1: 0xF4 for the digits 1 to 9. */
#define CRC8_FIRST 0u

/* The remainder with a byte more, which is the check value. */
MICROSYS_INLINE uint8_t crc8_with(uint8_t crc, uint8_t byte) {
    uint32_t rest = crc ^ byte;
    for (uint32_t bit = 0; bit < 8; bit++)
        rest = rest & 0x80 ? rest << 1 ^ 0x07 : rest << 1;
    return (uint8_t)rest;
}

#endif
