/* A door with a lock, as a table of states and events. */
#include "microsys.h"

enum state { LOCKED, CLOSED, OPEN, ALARM, STATES };
enum event { COIN, PUSH, SHUT, TICK, EVENTS };

struct transition {
    enum state next;
    void (*action)(void);
};

static uint32_t coins, alarms;

static void nothing(void) {
}
static void count_coin(void) {
    coins++;
}
static void ring_alarm(void) {
    alarms++;
    sys_put_char('!');
}

static const struct transition table[STATES][EVENTS] = {
    [LOCKED] = {{CLOSED, count_coin}, {ALARM, ring_alarm}, {LOCKED, nothing}, {LOCKED, nothing}},
    [CLOSED] = {{CLOSED, count_coin}, {OPEN, nothing}, {CLOSED, nothing}, {LOCKED, nothing}},
    [OPEN] = {{OPEN, count_coin}, {OPEN, nothing}, {CLOSED, nothing}, {OPEN, nothing}},
    [ALARM] = {{ALARM, count_coin}, {ALARM, ring_alarm}, {ALARM, nothing}, {LOCKED, nothing}},
};

static enum state state = LOCKED;

static void handle(enum event event) {
    const struct transition *it = &table[state][event];
    it->action();
    state = it->next;
    sys_put_char("LCOA"[state]);
}

THREAD main(void) {
    static const uint8_t script[] = {PUSH, TICK, COIN, PUSH, SHUT, TICK, PUSH, PUSH, COIN, TICK};
    for (;;) {
        sys_wait(CAP_BELL);
        for (unsigned i = 0; i < sizeof script; i++)
            handle(script[i]);
        sys_put_char('0' + coins);
        sys_put_char('0' + alarms);
        handler_ack(CAP_LINE);
    }
}
