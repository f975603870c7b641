/* Keeps the keys, and enciphers by XTEA (Needham and Wheeler, 1997). It knows who asks by the badge: 1 and 2 are clients,
 * 3 is the clock. */
#include "requests.h"

enum { CLOCK = 3, ROUNDS = 32 };
static const uint32_t delta = 0x9E3779B9;

/* For each slot of each client: whether there is a key, and its words. */
static volatile uint32_t is_full[CLIENTS * SLOTS], keys[CLIENTS * SLOTS * KEY_WORDS], served[CLIENTS];
/* The key that is used. */
static volatile uint32_t key[KEY_WORDS];

struct block {
    uint32_t left, right;
};

MICROSYS_INLINE struct block enciphered(struct block it) {
    uint32_t sum = 0;
    for (uint32_t round = 0; round < ROUNDS; round++) {
        it.left += ((it.right << 4 ^ it.right >> 5) + it.right) ^ (sum + key[sum & 3]);
        sum += delta;
        it.right += ((it.left << 4 ^ it.left >> 5) + it.left) ^ (sum + key[sum >> 11 & 3]);
    }
    return it;
}

MICROSYS_INLINE struct block deciphered(struct block it) {
    uint32_t sum = delta * ROUNDS;
    for (uint32_t round = 0; round < ROUNDS; round++) {
        it.right -= ((it.left << 4 ^ it.left >> 5) + it.left) ^ (sum + key[sum >> 11 & 3]);
        sum -= delta;
        it.left -= ((it.right << 4 ^ it.right >> 5) + it.right) ^ (sum + key[sum & 3]);
    }
    return it;
}

/* An answer that says no more than its status. Its words are 0, since those that are not sent stay what they were. */
MICROSYS_INLINE struct message without_words(enum status status) {
    return MESSAGE(status, 0, 0);
}

/* Carries out what a client asks of one of its slots. */
MICROSYS_INLINE struct message answered(uint32_t client, struct message asked) {
    if (asked.label > FORGET)
        return without_words(STATUS_NO_REQUEST);
    if (asked.words[0] >= SLOTS)
        return without_words(STATUS_NO_KEY);
    uint32_t place = below(CLIENTS * SLOTS, client * SLOTS + asked.words[0]);
    if (asked.label != STORE && !is_full[place])
        return without_words(STATUS_NO_KEY);
    volatile uint32_t *held = &keys[KEY_WORDS * place];
    if (asked.label == STORE || asked.label == FORGET) {
        uint32_t keeps = asked.label == STORE;
        is_full[place] = keeps;
        held[0] = keeps ? asked.words[1] : 0;
        held[1] = keeps ? asked.words[2] : 0;
        held[2] = keeps ? asked.words[3] : 0;
        held[3] = keeps ? asked.words[4] : 0;
        return without_words(STATUS_DONE);
    }
    key[0] = held[0];
    key[1] = held[1];
    key[2] = held[2];
    key[3] = held[3];
    struct block it = {asked.words[1], asked.words[2]};
    it = asked.label == ENCIPHER ? enciphered(it) : deciphered(it);
    return MESSAGE(STATUS_DONE, it.left, it.right);
}

THREAD vault(void) {
    struct message asked = sys_recv(CAP_ASKS);
    for (;;) {
        struct message answer = without_words(STATUS_DONE);
        if (asked.badge == CLOCK) {
            for (uint32_t i = 0; i < CLIENTS; i++)
                served[i] = 0;
        } else {
            uint32_t client = below(CLIENTS, asked.badge - 1);
            if (served[client] >= QUOTA) {
                answer = without_words(STATUS_QUOTA);
            } else {
                served[client]++;
                answer = answered(client, asked);
            }
        }
        asked = sys_reply_recv(CAP_ASKS, answer);
    }
}
