// text_of_pointer.c:8: error: static assertion failed: "put_text takes a literal or an array, and not a pointer"
#include "microsys.h"

THREAD main(void) {
    const char *text = "ready";
    for (;;) {
        sys_wait(CAP_BELL);
        put_text(text);
    }
}
