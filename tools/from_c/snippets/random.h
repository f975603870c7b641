/* Numbers at random, the same on each machine: Marsaglia's xorshift of 32 bits. */
static uint32_t random_state = 2463534242;

static uint32_t next_random(void) {
    random_state ^= random_state << 13;
    random_state ^= random_state >> 17;
    random_state ^= random_state << 5;
    return random_state;
}
