/* Sums up the bytes that it is sent. */
#include "microsys.h"
#include "crc.h"

#include "requests.h"

THREAD service(void) {
    uint32_t crc = CRC32_FIRST;
    struct message request = sys_recv(CAP_SUMS);
    for (;;) {
        uint32_t answer = crc32_last(crc);
        crc = request.label == ADD ? crc32_with(crc, request.words[0]) : CRC32_FIRST;
        request = sys_reply_recv(CAP_SUMS, MESSAGE(0, answer));
    }
}
