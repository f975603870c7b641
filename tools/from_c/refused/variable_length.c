// variable_length.c:7: a stack of no constant size: an array of a length that is not constant, or an alignment above 16
#include "microsys.h"

THREAD main(void) {
    for (;;) {
        uint32_t length = sys_wait(CAP_BELL) & 63;
        uint8_t bytes[length + 1];
        for (uint32_t i = 0; i <= length; i++)
            ((volatile uint8_t *)bytes)[i] = i;
    }
}
