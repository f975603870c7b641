/* A traffic light with a button for pedestrians: a machine of states with times in a table. */
#include "microsys.h"

enum state { RED, RED_YELLOW, GREEN, YELLOW, STATES };

struct phase {
    uint8_t lamps;
    uint8_t ticks;
    enum state next;
};

static const struct phase phases[STATES] = {
    [RED] = {0x4, 5, RED_YELLOW},
    [RED_YELLOW] = {0x6, 1, GREEN},
    [GREEN] = {0x1, 7, YELLOW},
    [YELLOW] = {0x2, 2, RED},
};

/* The ticks at which the button is pressed. */
static int button(int tick) {
    return tick == 9 || tick == 10 || tick == 30;
}

THREAD main(void) {
    for (;;) {
        sys_wait(CAP_BELL);
        enum state state = RED;
        int left = phases[RED].ticks;
        for (int tick = 0; tick < 40; tick++) {
            if (state == GREEN && button(tick) && left > 2)
                left = 2;
            if (left == 0) {
                state = phases[state].next;
                left = phases[state].ticks;
                sys_put_char(tick);
                sys_put_char(phases[state].lamps);
            }
            left--;
        }
        handler_ack(CAP_LINE);
    }
}
