/* A line for each number. */
#include "microsys.h"
#include "decimal.h"

THREAD printer(void) {
    for (;;) {
        struct message number = sys_recv(CAP_NUMBERS);
        put_decimal(number.words[0]);
        sys_put_char('\n');
    }
}
