// undeclared.c:7: error: 'CAP_BEL' undeclared (first use in this function); did you mean 'CAP_BELL'?
#include "microsys.h"

THREAD main(void) {
    for (;;) {
        /* What the description does not name has no number. */
        sys_wait(CAP_BEL);
    }
}
