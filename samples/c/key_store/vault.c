/* Keeps a key in a page that it makes from its pool. Before the key changes, the page is wiped, and its memory goes
 * back. */
#include "microsys.h"
#include "requests.h"

enum { CAP_KEY_PAGE = CAP_FREE_1, KEY_PAGE = 0x3000, WORDS = 1024 };

static void make_page(void) {
    untyped_retype(CAP_VAULT_POOL, FRAME, 0, OWN_CNODE, CAP_KEY_PAGE, 1);
    frame_map(CAP_KEY_PAGE, slot(CAP_VAULT_SPACE), KEY_PAGE, READ | WRITE);
}

static void wipe_page(void) {
    for (uint32_t i = 0; i < WORDS; i++)
        words_at(KEY_PAGE)[i] = 0;
    frame_unmap(CAP_KEY_PAGE);
    cnode_revoke(CAP_VAULT_SLOTS, slot(CAP_VAULT_POOL));
}

THREAD vault(void) {
    uint32_t key = 0x5A;
    for (;;) {
        make_page();
        words_at(KEY_PAGE)[0] = key;
        struct message request = sys_recv(CAP_REQUESTS);
        while (request.label == SIGN)
            request = sys_reply_recv(CAP_REQUESTS, MESSAGE(0, request.words[0] ^ words_at(KEY_PAGE)[0]));
        key = request.words[0];
        wipe_page();
        sys_reply(MESSAGE(0));
    }
}
