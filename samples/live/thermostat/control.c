/* At each beat: on below 20.5 degrees, off above 21.5, and else as it was. What is no temperature of a room turns the
 * heater off. */
#include "microsys.h"

/* Hundredths of a degree, and thousandths of the heater's power. */
enum { LEAST = -4000, LOW = 2050, HIGH = 2150, OFF = 0, ON = 1000 };

THREAD control(void) {
    uint32_t power = OFF;
    for (;;) {
        sys_wait(CAP_BEAT);
        int32_t measured = words_at(PAGE_SENSOR)[0];
        if (measured < LEAST || measured > HIGH)
            power = OFF;
        else if (measured < LOW)
            power = ON;
        words_at(PAGE_HEATER)[0] = power;
        handler_ack(CAP_BEAT_LINE1);
    }
}
