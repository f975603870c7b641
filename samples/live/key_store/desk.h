/* A client's desk: it hands each request to the vault, and writes the answer beside it. */
#include "requests.h"

MICROSYS_INLINE void hand_on(volatile uint32_t *requests, volatile uint32_t *answers) {
    uint32_t count = below(MOST + 1, requests[COUNT]);
    for (uint32_t i = 0; i < count; i++) {
        volatile uint32_t *asked = requests + FIRST + REQUEST_WORDS * i;
        uint32_t request = asked[0];
        struct message answer = {.label = STATUS_NO_REQUEST};
        if (request < BEAT)
            answer = sys_call(CAP_ASKS, MESSAGE(request, asked[1], asked[2], asked[3], asked[4], asked[5]));
        volatile uint32_t *given = answers + FIRST + ANSWER_WORDS * i;
        given[0] = answer.label;
        given[1] = answer.words[0];
        given[2] = answer.words[1];
    }
    answers[COUNT] = count;
}
