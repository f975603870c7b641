/* When line 1 rings it has a word signed and puts the answer; when line 2 does it changes the key and puts 'W'. */
#include "microsys.h"
#include "requests.h"

enum { ASK = 1, NEW_KEY = 2 };

THREAD user(void) {
    uint32_t word = 0x1B;
    for (;;) {
        uint32_t rung = sys_wait(CAP_ASKED);
        if (rung & ASK) {
            struct message answer = sys_call(CAP_REQUESTS, MESSAGE(SIGN, word));
            sys_put_char(answer.words[0]);
            word++;
            handler_ack(CAP_ASKED_LINE1);
        }
        if (rung & NEW_KEY) {
            sys_call(CAP_REQUESTS, MESSAGE(CHANGE, 0x2A));
            sys_put_char('W');
            handler_ack(CAP_ASKED_LINE2);
        }
    }
}
