/* At each ring of the bell: a product of 64 bits, of which a byte of the low word and two of the high one are put. */
#include "microsys.h"
#include "product.h"

#include "random.h"

THREAD main(void) {
    for (;;) {
        sys_wait(CAP_BELL);
        uint32_t a = next_random(), b = next_random();
        uint64_t made = wide_product(a, b);
        sys_put_char(made);
        sys_put_char(made >> 32);
        sys_put_char(made >> 56);
        handler_ack(CAP_LINE);
    }
}
