/* Commands by name, from a table of functions. */
#include "microsys.h"

struct command {
    const char *name;
    uint8_t (*run)(uint8_t argument);
};

static uint8_t led, level;

static uint8_t set_led(uint8_t argument) {
    led = argument & 1;
    return led;
}
static uint8_t get_led(uint8_t argument) {
    (void)argument;
    return led;
}
static uint8_t set_level(uint8_t argument) {
    level = argument > 100 ? 100 : argument;
    return level;
}

static const struct command commands[] = {{"led", set_led}, {"led?", get_led}, {"level", set_level}};

static int same(const char *a, const char *b) {
    while (*a && *a == *b) {
        AT_MOST(8);
        a++, b++;
    }
    return *a == *b;
}

static void execute(const char *name, uint8_t argument) {
    for (unsigned i = 0; i < sizeof commands / sizeof commands[0]; i++)
        if (same(commands[i].name, name)) {
            sys_put_char(commands[i].run(argument));
            return;
        }
    sys_put_char('?');
}

THREAD main(void) {
    for (;;) {
        sys_wait(CAP_BELL);
        execute("led", 1);
        execute("led?", 0);
        execute("level", 250);
        execute("lev", 1);
        handler_ack(CAP_LINE);
    }
}
