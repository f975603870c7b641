// constructor.c:6: a constructor or destructor: nothing runs before a thread, and it never ends
#include "microsys.h"

static uint32_t first;

__attribute__((constructor)) static void prepare(void) {
    first = 4;
}

THREAD main(void) {
    for (;;)
        sys_put_char(sys_wait(CAP_BELL) + first);
}
