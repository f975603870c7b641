/* A parser of sums: a machine of states over a text of known length, which puts the low byte of each sum at its `=`,
 * and `?` for a character that it does not know. */
#include "microsys.h"

static const char text[24] = "12+34-5=9-10=7*6=255+1=";

struct parser {
    uint32_t total, number;
    char operation;
};

static void apply(struct parser *it) {
    switch (it->operation) {
    case '+':
        it->total += it->number;
        break;
    case '-':
        it->total -= it->number;
        break;
    default:
        it->total = it->number;
    }
    it->number = 0;
}

static void take(struct parser *it, char character) {
    switch (character) {
    case '0' ... '9':
        it->number = it->number * 10 + (character - '0');
        break;
    case '+':
    case '-':
        apply(it);
        it->operation = character;
        break;
    case '=':
        apply(it);
        sys_put_char(it->total);
        it->operation = 0;
        break;
    case 0:
        break;
    default:
        sys_put_char('?');
    }
}

THREAD main(void) {
    for (;;) {
        sys_wait(CAP_BELL);
        struct parser parser = {0, 0, 0};
        for (uint32_t i = 0; i < sizeof text; i++)
            take(&parser, text[i]);
        handler_ack(CAP_LINE);
    }
}
