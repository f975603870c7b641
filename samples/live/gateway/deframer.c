/* Takes bytes of the line as they come, in pieces of at most CHUNK, decodes them one by one, and hands on what is in whole
 * frames. A frame that ends in the midst of a code, is too long, or has another CRC is dropped and counted. */
#include "wire.h"

enum { ROOM = PAYLOAD + CRC + CHUNK };

/* Whole frames, and after them the one that is coming. */
static uint8_t plain[ROOM];
/* The frame that is coming: how many bytes of it there are, how many the code has left, whether a zero comes before the
 * next code, whether it has begun, whether it is already lost, and its CRC so far. */
static struct {
    uint32_t at, left, is_zero_due, has_begun, is_lost, crc;
} frame = {.crc = CRC32_FIRST};
static uint32_t whole, dropped;

MICROSYS_INLINE void take_plain(uint32_t end, uint32_t byte) {
    if (frame.at >= PAYLOAD + CRC) {
        frame.is_lost = 1;
        return;
    }
    plain[below(ROOM, end + frame.at)] = byte;
    frame.at++;
    frame.crc = crc32_with(frame.crc, byte);
}

MICROSYS_INLINE void take_coded(uint32_t end, uint32_t byte) {
    frame.has_begun = 1;
    if (frame.left > 0) {
        frame.left--;
        take_plain(end, byte);
        return;
    }
    if (frame.is_zero_due)
        take_plain(end, 0);
    frame.left = byte - 1;
    frame.is_zero_due = byte != 0xFF;
}

/* A frame ends: how many bytes of it are handed on. */
MICROSYS_INLINE uint32_t take_end(void) {
    uint32_t is_whole = frame.left == 0 && !frame.is_lost && frame.at >= CRC && frame.crc == CRC32_REST;
    uint32_t length = is_whole ? frame.at - CRC : 0;
    if (is_whole)
        whole++;
    else if (frame.has_begun)
        dropped++;
    frame.at = frame.left = frame.is_zero_due = frame.has_begun = frame.is_lost = 0;
    frame.crc = CRC32_FIRST;
    return length;
}

THREAD deframer(void) {
    for (;;) {
        sys_wait(CAP_CAME);
        uint32_t length = below(CHUNK + 1, words_at(PAGE_LINE_IN)[LENGTH]);
        uint32_t end = 0;
        for (uint32_t i = 0; i < length; i++) {
            uint32_t byte = bytes_at(PAGE_LINE_IN)[CONTENT + i];
            if (byte == 0)
                end += take_end();
            else
                take_coded(end, byte);
        }
        end = below(ROOM + 1, end);
        for (uint32_t i = 0; i < end; i++)
            bytes_at(PAGE_OFFICE_OUT)[CONTENT + i] = plain[i];
        words_at(PAGE_OFFICE_OUT)[LENGTH] = end;
        /* What has come of the next frame goes to the beginning. */
        uint32_t rest = below(PAYLOAD + CRC + 1, frame.at);
        for (uint32_t i = 0; i < rest; i++)
            plain[i] = plain[below(ROOM, end + i)];
        words_at(PAGE_COUNTS)[WHOLE] = whole;
        words_at(PAGE_COUNTS)[DROPPED] = dropped;
        handler_ack(CAP_CAME_LINE2);
    }
}
