/* A command line: `set N`, `add N`, `show` and `reset`, one a line. */
#include "microsys.h"
#include <string.h>

static const char input[] = "set 40\nadd 2\nshow\nadd x\nreset\nshow\nfoo\nset 7\nshow\n";
static char line[16];
static uint32_t value;

static int starts_with(const char *word, unsigned length) {
    return memcmp(line, word, length) == 0;
}

/* The number at the place, or -1. */
static int number_at(unsigned at) {
    int number = 0;
    if (line[at] < '0' || line[at] > '9')
        return -1;
    while (line[at] >= '0' && line[at] <= '9')
        number = number * 10 + (line[at++] - '0');
    return number;
}

static void execute(void) {
    int number;
    if (starts_with("set ", 4) && (number = number_at(4)) >= 0)
        value = number;
    else if (starts_with("add ", 4) && (number = number_at(4)) >= 0)
        value += number;
    else if (starts_with("show", 5))
        sys_put_char(value);
    else if (starts_with("reset", 6))
        value = 0;
    else
        sys_put_char('?');
}

THREAD main(void) {
    for (;;) {
        sys_wait(CAP_BELL);
        unsigned length = 0;
        for (unsigned i = 0; i < sizeof input - 1; i++) {
            char c = input[i];
            if (c == '\n') {
                line[length] = 0;
                execute();
                length = 0;
            } else if (length < sizeof line - 1) {
                line[length++] = c;
            }
        }
        handler_ack(CAP_LINE);
    }
}
