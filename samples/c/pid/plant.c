/* At each turn: an eighth of the power warms, and a sixteenth of what it is warmer than 20 degrees is lost. */
#include "microsys.h"

THREAD plant(void) {
    int32_t temperature = 20;
    for (;;) {
        sys_wait(CAP_TURN);
        int32_t power = words_at(PAGE_POWER)[0];
        temperature += (power >> 3) - ((temperature - 20) >> 4);
        words_at(PAGE_TEMPERATURE)[0] = temperature;
        handler_ack(CAP_TURN_LINE2);
    }
}
