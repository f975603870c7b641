/* Pages and frames. A page in or out has its LENGTH in a word, and from CONTENT on so many bytes. A frame is at most
 * PAYLOAD bytes and their CRC, the lowest byte first, coded by COBS, and a zero. */
#ifndef WIRE_H
#define WIRE_H

#include "microsys.h"

enum { LENGTH = 0, CONTENT = 4, PAYLOAD = 1016, CRC = 4, CHUNK = 1020 };
/* The words of `counts`. */
enum { WHOLE = 0, DROPPED = 1 };
/* CRC-32 of Ethernet, ZIP and PNG, by four bits at a time; and what is left of it when it has taken its own bytes, too. */
#define CRC32_FIRST 0xFFFFFFFFu
#define CRC32_REST 0xDEBB20E3u
static const uint32_t remainders[16] = {0x00000000, 0x1DB71064, 0x3B6E20C8, 0x26D930AC, 0x76DC4190, 0x6B6B51F4,
                                        0x4DB26158, 0x5005713C, 0xEDB88320, 0xF00F9344, 0xD6D6A3E8, 0xCB61B38C,
                                        0x9B64C2B0, 0x86D3D2D4, 0xA00AE278, 0xBDBDF21C};

MICROSYS_INLINE uint32_t crc32_with(uint32_t crc, uint32_t byte) {
    crc ^= byte;
    crc = crc >> 4 ^ remainders[crc & 15];
    return crc >> 4 ^ remainders[crc & 15];
}

#endif
