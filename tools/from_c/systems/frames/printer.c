/* Puts the characters of each frame that it is sent. */
#include "frame.h"
#include "microsys.h"

static uint32_t words[FRAME_WORDS];

THREAD printer(void) {
    for (;;) {
        uint32_t length = words_of(sys_recv(CAP_OUTSIDE), words, FRAME_WORDS);
        for (uint32_t i = 0; i < FRAME_WORDS - 1; i++)
            if (i < length)
                sys_put_char(words[i]);
    }
}
