/* A ring buffer of bytes between what receives and what sends. */
#include "microsys.h"

#define CAPACITY 16

struct ring {
    uint8_t data[CAPACITY];
    uint32_t head, tail, count;
};

static struct ring ring;

static int ring_put(struct ring *it, uint8_t byte) {
    if (it->count == CAPACITY)
        return -1;
    it->data[it->head] = byte;
    it->head = (it->head + 1) % CAPACITY;
    it->count++;
    return 0;
}

static int ring_get(struct ring *it, uint8_t *byte) {
    if (it->count == 0)
        return -1;
    *byte = it->data[it->tail];
    it->tail = (it->tail + 1) % CAPACITY;
    it->count--;
    return 0;
}

THREAD main(void) {
    for (;;) {
        sys_wait(CAP_BELL);
        int lost = 0;
        for (int i = 0; i < 20; i++)
            if (ring_put(&ring, 'a' + i) < 0)
                lost++;
        uint8_t byte;
        while (ring_get(&ring, &byte) == 0) {
            AT_MOST(16);
            sys_put_char(byte);
        }
        sys_put_char('0' + lost);
        handler_ack(CAP_LINE);
    }
}
