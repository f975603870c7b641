/* The sieve of Eratosthenes up to 63: a loop whose stride is another loop's counter. */
#include "microsys.h"

enum { END = 64 };
static uint8_t crossed[END];

THREAD main(void) {
    for (;;) {
        sys_wait(CAP_BELL);
        for (uint32_t number = 0; number < END; number++)
            crossed[number] = 0;
        for (uint32_t number = 2; number < END; number++) {
            if (crossed[number])
                continue;
            sys_put_char(number);
            for (uint32_t product = number + number; product < END; product += number)
                crossed[product] = 1;
        }
        handler_ack(CAP_LINE);
    }
}
