/* A ring of words between two threads, one that puts and one that takes, in a page that both have mapped to write, or
 * in an array of one thread's own. What is put while the ring is full is not kept, and the caller is told.
 *
 *     #define RING_WORDS 32
 *     #include "ring.h"
 *     if (!ring_put(words_at(PAGE_SHARED), word)) ..      and on the other side      if (ring_take(words_at(PAGE_SHARED), &word)) ..
 *
 * Limits: RING_WORDS is a power of two, 2 to 512, and 64 where it is not said, the same on both sides; the ring takes
 * RING_SPACE words, which are 0 at first. Whatever the other thread writes into the page, the words that are read and
 * written are those of the ring.
 * Budget of a thread that puts a word and takes one between two waits: 48. */
#ifndef MICROSYS_RING_H
#define MICROSYS_RING_H

#include <stdbool.h>

#include "microsys.h"

#ifndef RING_WORDS
#define RING_WORDS 64
#endif

/* How many were put, how many were taken, and the words. */
enum { RING_PUT, RING_TAKEN, RING_FIRST, RING_SPACE = RING_FIRST + RING_WORDS };

_Static_assert(RING_WORDS >= 2 && RING_WORDS <= 512 && (RING_WORDS & (RING_WORDS - 1)) == 0,
               "RING_WORDS is a power of two, 2 to 512");

/* How many words wait. */
MICROSYS_INLINE uint32_t ring_length(const volatile uint32_t *ring) {
    return ring[RING_PUT] - ring[RING_TAKEN];
}

/* Puts a word, and says whether there was room. */
MICROSYS_INLINE bool ring_put(volatile uint32_t *ring, uint32_t word) {
    uint32_t put = ring[RING_PUT];
    if (put - ring[RING_TAKEN] >= RING_WORDS)
        return false;
    ring[RING_FIRST + (put & (RING_WORDS - 1))] = word;
    ring[RING_PUT] = put + 1;
    return true;
}

/* Takes the word that was put first, and says whether there was one. */
MICROSYS_INLINE bool ring_take(volatile uint32_t *ring, uint32_t *word) {
    uint32_t taken = ring[RING_TAKEN];
    if (taken == ring[RING_PUT])
        return false;
    *word = ring[RING_FIRST + (taken & (RING_WORDS - 1))];
    ring[RING_TAKEN] = taken + 1;
    return true;
}

#endif
