/* Adds a word to the count of the one who calls, and answers that count and the sum of both. */
#include "microsys.h"

enum { LEFT = 1 };

THREAD counter(void) {
    uint32_t left = 0, right = 0;
    struct message request = sys_recv(CAP_COUNT);
    for (;;) {
        uint32_t own;
        if (request.badge == LEFT)
            own = left += request.words[0];
        else
            own = right += request.words[0];
        request = sys_reply_recv(CAP_COUNT, MESSAGE(0, own, left + right));
    }
}
