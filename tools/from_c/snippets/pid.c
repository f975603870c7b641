/* At each ring of the bell: a step towards 100, of measurements that jump and then come closer. */
#include "microsys.h"
#include "pid.h"

#include "random.h"

enum { WANTED = 100 };
static struct pid loop = {
    .proportional = 384, .integral = 64, .differential = 128, .low = -100, .high = 155, .most = 400};

THREAD main(void) {
    uint32_t rings = 0;
    int32_t measured = 0;
    for (;;) {
        sys_wait(CAP_BELL);
        uint32_t random = next_random();
        if ((rings & 15) == 0)
            measured = (int32_t)(random & 511) - 256;
        int32_t output = pid_step(&loop, WANTED, measured);
        measured += output >> 2;
        sys_put_char(output);
        rings++;
        handler_ack(CAP_LINE);
    }
}
