// floating.c:9: `__mulsf3` is not there, for floating point: use whole numbers
#include "microsys.h"

static volatile float scale = 1.5f;

THREAD main(void) {
    for (;;) {
        sys_wait(CAP_BELL);
        scale = scale * scale;
    }
}
