// library.c:9: `printf` is not there, for the C library's output: use sys_put_char
#include "microsys.h"

int printf(const char *, ...);

THREAD main(void) {
    for (;;) {
        sys_wait(CAP_BELL);
        printf("rung %d times\n", 1);
    }
}
