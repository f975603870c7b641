/* A status word with fields, a bitmap of free blocks, and the parity of both. */
#include "microsys.h"

struct status {
    uint32_t ready : 1;
    uint32_t mode : 3;
    uint32_t channel : 5;
    int32_t offset : 7;
    uint32_t reserved : 16;
};

static uint8_t used[4];

static int allocate(void) {
    for (int block = 0; block < 32; block++)
        if (!(used[block / 8] & 1 << block % 8)) {
            used[block / 8] |= 1 << block % 8;
            return block;
        }
    return -1;
}

static void release(int block) {
    used[block >> 3] &= ~(1 << (block & 7));
}

static int parity(uint32_t word) {
    int odd = 0;
    for (; word; word &= word - 1) {
        AT_MOST(32);
        odd ^= 1;
    }
    return odd;
}

THREAD main(void) {
    static struct status status;
    for (;;) {
        sys_wait(CAP_BELL);
        status.ready = 1;
        status.mode = 5;
        status.channel = 19;
        status.offset = -7;
        sys_put_char(status.mode + status.channel + status.offset);
        for (int i = 0; i < 10; i++)
            sys_put_char(allocate());
        release(3);
        release(7);
        sys_put_char(allocate());
        uint32_t all = 0;
        for (int i = 3; i >= 0; i--)
            all = all << 8 | used[i];
        sys_put_char('0' + parity(all));
        handler_ack(CAP_LINE);
    }
}
