/* Hands frames whose words sum up to 0 on to the printer, as they came, and answers whether it did. */
#include "frame.h"
#include "microsys.h"

static uint32_t sum_of(struct message frame) {
    uint32_t sum = frame.words[0] + frame.words[1] + frame.words[2] + frame.words[3] + frame.words[4] +
                   frame.words[5] + frame.words[6] + frame.words[7];
    for (uint32_t i = WORDS_IN_REGISTERS; i < FRAME_WORDS; i++)
        sum += buffer_word(i);
    return sum;
}

THREAD gateway(void) {
    struct message frame = sys_recv(CAP_INSIDE);
    for (;;) {
        uint32_t answer = REFUSED;
        if (frame.length == FRAME_WORDS && sum_of(frame) == 0) {
            sys_send(CAP_OUTSIDE, frame);
            answer = HANDED_ON;
        }
        frame = sys_reply_recv(CAP_INSIDE, MESSAGE(answer));
    }
}
