/* What is asked of the vault, and how it is answered. */
#ifndef REQUESTS_H
#define REQUESTS_H

#include "microsys.h"

/* The label of a message: what is asked. */
enum request {
    STORE,    /* a slot, and the four words of a key */
    ENCIPHER, /* a slot, and a block's two words: the answer has two */
    DECIPHER, /* the same the other way */
    FORGET,   /* a slot */
    BEAT,     /* of the clock alone: all have their whole quota again */
};
/* The label of an answer. */
enum status {
    STATUS_DONE,       /* it is done */
    STATUS_NO_KEY,     /* there is no key in that slot, or no such slot */
    STATUS_NO_REQUEST, /* nothing like that can be asked */
    STATUS_QUOTA,      /* the quota is used up until the next beat */
};
enum { CLIENTS = 2, SLOTS = 8, KEY_WORDS = 4, QUOTA = 16 };

/* At a desk: how many requests there are, and from FIRST on each in eight words, what is asked, and six more; answers are
 * the status and two words more, in four. */
enum { COUNT = 0, FIRST = 8, REQUEST_WORDS = 8, ANSWER_WORDS = 4, MOST = 120 };

#endif
