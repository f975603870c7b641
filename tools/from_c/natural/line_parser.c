/* Lines such as `set 12 -7`, cut into words and numbers. */
#include "microsys.h"

static const char *const lines[] = {"set 12 -7", "get 3", "  clear", "set 99999", "bad 1 2 3"};

static int is_space(char c) {
    return c == ' ' || c == '\t';
}

static const char *skip(const char *s) {
    while (is_space(*s)) {
        AT_MOST(16);
        s++;
    }
    return s;
}

static const char *number(const char *s, int *value) {
    int negative = 0, sum = 0;
    if (*s == '-') {
        negative = 1;
        s++;
    }
    while (*s >= '0' && *s <= '9') {
        AT_MOST(16);
        sum = sum * 10 + (*s++ - '0');
    }
    *value = negative ? -sum : sum;
    return s;
}

static int starts(const char *s, const char *word) {
    while (*word) {
        AT_MOST(16);
        if (*s++ != *word++)
            return 0;
    }
    return *s == 0 || is_space(*s);
}

static void parse(const char *s) {
    s = skip(s);
    sys_put_char(starts(s, "set") ? 's' : starts(s, "get") ? 'g' : starts(s, "clear") ? 'c' : '?');
    while (*s && !is_space(*s)) {
        AT_MOST(16);
        s++;
    }
    int values[2], count = 0;
    while (*(s = skip(s)) && count < 2) {
        AT_MOST(3);
        s = number(s, &values[count++]);
    }
    for (int i = 0; i < count; i++) {
        sys_put_char(values[i] >> 8);
        sys_put_char(values[i]);
    }
}

THREAD main(void) {
    for (;;) {
        sys_wait(CAP_BELL);
        for (unsigned i = 0; i < sizeof lines / sizeof *lines; i++)
            parse(lines[i]);
        handler_ack(CAP_LINE);
    }
}
