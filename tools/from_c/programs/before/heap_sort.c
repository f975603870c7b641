/* Heapsort of twelve words. */
#include "microsys.h"

static int32_t numbers[12] = {31, -41, 59, 26, -53, 58, 97, 93, -23, 84, 62, 64};

static void swap(int32_t *a, int32_t *b) {
    int32_t t = *a;
    *a = *b;
    *b = t;
}

static void sift_down(int32_t *heap, int root, int end) {
    while (2 * root + 1 < end) {
        int child = 2 * root + 1;
        if (child + 1 < end && heap[child] < heap[child + 1])
            child++;
        if (heap[root] >= heap[child])
            return;
        swap(&heap[root], &heap[child]);
        root = child;
    }
}

static void heap_sort(int32_t *heap, int count) {
    for (int i = count / 2 - 1; i >= 0; i--)
        sift_down(heap, i, count);
    for (int end = count - 1; end > 0; end--) {
        swap(&heap[0], &heap[end]);
        sift_down(heap, 0, end);
    }
}

THREAD main(void) {
    for (;;) {
        sys_wait(CAP_BELL);
        heap_sort(numbers, 12);
        for (int i = 0; i < 12; i++)
            sys_put_char(numbers[i]);
        handler_ack(CAP_LINE);
    }
}
