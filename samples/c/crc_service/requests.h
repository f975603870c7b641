/* What a client asks of the service: the label of its message. */
enum request {
    ADD,   /* one word, the next byte */
    CHECK, /* the answer has one word, the CRC-32 of the bytes so far; the next byte is the first of others */
};
