// recursion.c:7: recursion, which has no bound: factorial calls factorial; write a loop
#include "microsys.h"

__attribute__((noinline)) static uint32_t factorial(uint32_t number) {
    if (number == 0)
        return 1;
    return factorial(number - 1) * number;
}

THREAD main(void) {
    for (;;)
        sys_put_char(factorial(sys_wait(CAP_BELL)));
}
