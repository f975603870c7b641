/* At each beat: five letters more, of which four have room; it puts '!' for each that has none. */
#include "microsys.h"
#include "shared.h"

THREAD producer(void) {
    uint32_t letter = 0;
    for (;;) {
        sys_wait(CAP_BEAT);
        for (uint32_t i = 0; i < 5; i++) {
            if (!ring_put(words_at(PAGE_SHARED), 'a' + letter))
                sys_put_char('!');
            letter = (letter + 1) & 15;
        }
        sys_signal(CAP_FILLED);
        handler_ack(CAP_BEAT_LINE1);
    }
}
