/* At each beat: the power for 100 degrees. It puts the temperature and the power. */
#include "microsys.h"
#include "pid.h"

enum { WANTED = 100 };
static struct pid heater = {
    .proportional = 384, .integral = 32, .differential = 256, .low = 0, .high = 255, .most = 1000, .last = 20};

THREAD control(void) {
    for (;;) {
        sys_wait(CAP_BEAT);
        uint32_t measured = words_at(PAGE_TEMPERATURE)[0];
        uint32_t power = pid_step(&heater, WANTED, measured);
        words_at(PAGE_POWER)[0] = power;
        sys_put_char(measured);
        sys_put_char(power);
        handler_ack(CAP_BEAT_LINE1);
    }
}
