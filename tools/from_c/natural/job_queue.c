/* Jobs by priority in a linked list, from a pool of nodes. */
#include "microsys.h"
#include <stddef.h>

#define NODES 8

struct job {
    struct job *next;
    uint8_t priority, number;
};

static struct job pool[NODES];
static struct job *free_list, *queue;

static void start(void) {
    for (int i = 0; i < NODES; i++) {
        pool[i].next = free_list;
        free_list = &pool[i];
    }
}

static int post(uint8_t priority, uint8_t number) {
    struct job *job = free_list;
    if (job == NULL)
        return -1;
    free_list = job->next;
    job->priority = priority;
    job->number = number;
    struct job **at = &queue;
    while (*at && (*at)->priority >= priority) {
        AT_MOST(8);
        at = &(*at)->next;
    }
    job->next = *at;
    *at = job;
    return 0;
}

static int take(void) {
    struct job *job = queue;
    if (job == NULL)
        return -1;
    queue = job->next;
    job->next = free_list;
    free_list = job;
    return job->number;
}

THREAD main(void) {
    start();
    for (;;) {
        sys_wait(CAP_BELL);
        for (int i = 0; i < 10; i++)
            sys_put_char(post((i * 7) % 5, 'a' + i) == 0 ? '+' : '-');
        int number;
        while ((number = take()) >= 0) {
            AT_MOST(8);
            sys_put_char(number);
        }
        handler_ack(CAP_LINE);
    }
}
