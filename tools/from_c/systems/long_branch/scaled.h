#include <stdint.h>

/* The low word of the product, where the first factor is below 2^20. */
uint32_t scaled(uint32_t by, uint32_t number);
