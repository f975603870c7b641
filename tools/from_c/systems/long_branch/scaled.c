#include "scaled.h"

uint32_t scaled(uint32_t by, uint32_t number) {
    uint32_t sum = 0;
    for (uint32_t bit = 0; bit < 20; bit++) {
        if (by & 1)
            sum += number;
        by >>= 1;
        number <<= 1;
    }
    return sum;
}
