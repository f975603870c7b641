/* microsys.h for the machine that a thread is tested on: all of it, and the calls go to `microsys_call`, which a test
 * defines. Where it defines none, what a thread puts is printed, a byte a line in hexadecimal, a receive gives nothing,
 * and the process ends at the first wait after RINGS of them. Names of a description are defined by who compiles, as
 * `-DCAP_BELL='((struct bell){1})'`; `MICROSYS_BUFFER` and `PAGE_..` are arrays of 1024 words.
 *
 *     cc -fwrapv -I tools/from_c/host -iquote tools/from_c/include -DRINGS=3 ring.c test.c */
#ifndef MICROSYS_HOST_H
#define MICROSYS_HOST_H

#include <stdio.h>
#include <stdlib.h>

#ifndef CAP_BELL
#define CAP_BELL ((struct bell){1})
#endif
#ifndef CAP_LINE
#define CAP_LINE ((struct line){2})
#endif
#ifndef MICROSYS_BELL
#define MICROSYS_BELL 1
#endif
#ifndef RINGS
#define RINGS 1
#endif

#include "../microsys.h"

__attribute__((weak)) struct message microsys_call(uint32_t number, uint32_t capability, struct message message) {
    static uint32_t waits;
    if (number == 9)
        printf("%02x\n", (unsigned)capability);
    else if ((number == 2 || number == 5) && waits++ == RINGS)
        exit(0);
    message.badge = number == 5 ? capability : 0;
    return message;
}

#endif
