/* <assert.h>. Where the condition does not hold the thread waits for ever, and takes what comes without an answer: each
 * thread has a notification or an endpoint that it may read, and the tool takes the first. Behind an `assert` the
 * verifier knows that its condition holds: `assert(i < 8)` shows that i is an index of eight. */
#undef assert
#ifdef NDEBUG
#define assert(condition) ((void)0)
#else
#define assert(condition) ((condition) ? (void)0 : microsys_assertion_failed())
#endif

#ifndef MICROSYS_ASSERT_H
#define MICROSYS_ASSERT_H

#include "microsys.h"

#define static_assert _Static_assert

__attribute__((noreturn)) MICROSYS_INLINE void microsys_assertion_failed(void) {
    for (;;)
        (void)microsys_take(5, MICROSYS_BELL);
}

#endif
