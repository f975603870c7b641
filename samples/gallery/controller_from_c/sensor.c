/* Hands on what the probe has when its line says that there is something new. */
#include "microsys.h"

THREAD sensor(void) {
    for (;;) {
        sys_wait(CAP_READY);
        words_at(PAGE_SAMPLE)[0] = words_at(PAGE_PROBE)[0];
        handler_ack(CAP_SENSOR_LINE);
    }
}
