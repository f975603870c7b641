// returns.c:7: `main` returns, and a thread has nowhere to return to: end it with a loop that waits
#include "microsys.h"

void main(void) {
    sys_wait(CAP_BELL);
    sys_put_char('!');
}
