/* When its line rings: sends a frame of 31 characters, and puts '+' if it was handed on, else '-'. Every second frame
 * has a wrong sum. */
#include "frame.h"
#include "microsys.h"

static const char texts[2][FRAME_WORDS] = {"words 8 to 31 are in the buffer", "and this one is not handed on.."};
static uint32_t words[FRAME_WORDS];

THREAD driver(void) {
    uint32_t rings = 0;
    for (;;) {
        sys_wait(CAP_BELL);
        uint32_t sum = 0;
        for (uint32_t i = 0; i < FRAME_WORDS - 1; i++) {
            words[i] = texts[rings & 1][i];
            sum += words[i];
        }
        words[FRAME_WORDS - 1] = (rings & 1) - sum;
        struct message answer = sys_call(CAP_INSIDE, message_of(0, words, FRAME_WORDS));
        sys_put_char(answer.label == HANDED_ON ? '+' : '-');
        rings++;
        handler_ack(CAP_LINE);
    }
}
