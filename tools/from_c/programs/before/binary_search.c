/* Searches words in a sorted table, and puts the place of each, or 255. */
#include "microsys.h"

static const uint16_t table[16] = {2, 3, 5, 7, 11, 13, 17, 19, 23, 29, 31, 37, 41, 43, 47, 53};
static const uint16_t wanted[8] = {2, 53, 1, 54, 23, 24, 7, 43};

static int find(uint16_t key) {
    int low = 0, high = 15;
    while (low <= high) {
        int middle = (low + high) / 2;
        if (table[middle] == key)
            return middle;
        if (table[middle] < key)
            low = middle + 1;
        else
            high = middle - 1;
    }
    return -1;
}

THREAD main(void) {
    for (;;) {
        sys_wait(CAP_BELL);
        for (int i = 0; i < 8; i++)
            sys_put_char(find(wanted[i]));
        handler_ack(CAP_LINE);
    }
}
