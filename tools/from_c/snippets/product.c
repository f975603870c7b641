/* At each ring of the bell: a product with a factor of 12 bits, of which the lowest and the highest byte are put. */
#include "microsys.h"
#include "product.h"

#include "random.h"

THREAD main(void) {
    for (;;) {
        sys_wait(CAP_BELL);
        uint32_t random = next_random();
        uint32_t made = product_of(12, random, random >> 20);
        sys_put_char(made);
        sys_put_char(made >> 24);
        handler_ack(CAP_LINE);
    }
}
