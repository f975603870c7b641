/* A frame: 31 words, and one more with which the sum of all is 0. */
enum { FRAME_WORDS = 32 };

/* What the gateway answers: the label of its message. */
enum answer { REFUSED, HANDED_ON };
