// no_buffer.c:8: error: there is no message buffer: a line `buffer FRAME` of the thread is missing, or the frame is mapped nowhere
#include "microsys.h"

THREAD main(void) {
    uint32_t words[3] = {1, 2, 3};
    for (;;) {
        sys_wait(CAP_BELL);
        sys_put_char(message_of(0, words, 3).length);
    }
}
