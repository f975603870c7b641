/* Insertion sort, and a binary search in what it has sorted. */
#include "microsys.h"

#define COUNT 12

static int16_t values[COUNT] = {31, -4, 15, 9, 26, -5, 35, 8, 97, 93, 23, 84};

static void sort(int16_t *a, int n) {
    for (int i = 1; i < n; i++) {
        int16_t key = a[i];
        int j = i - 1;
        while (j >= 0 && a[j] > key) {
            AT_MOST(12);
            a[j + 1] = a[j];
            j--;
        }
        a[j + 1] = key;
    }
}

static int find(const int16_t *a, int n, int16_t wanted) {
    int low = 0, high = n - 1;
    while (low <= high) {
        AT_MOST(5);
        int middle = (low + high) / 2;
        if (a[middle] == wanted)
            return middle;
        if (a[middle] < wanted)
            low = middle + 1;
        else
            high = middle - 1;
    }
    return -1;
}

THREAD main(void) {
    for (;;) {
        sys_wait(CAP_BELL);
        sort(values, COUNT);
        for (int i = 0; i < COUNT; i++)
            sys_put_char(values[i]);
        sys_put_char('0' + find(values, COUNT, 26));
        sys_put_char('0' + find(values, COUNT, 27));
        handler_ack(CAP_LINE);
    }
}
