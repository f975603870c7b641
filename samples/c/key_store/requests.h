/* What the user asks of the vault: the label of its message. */
enum request {
    SIGN,   /* one word; the answer is the word and the key, exclusively or-ed */
    CHANGE, /* one word, the new key; the answer has no words, and comes when the old key is wiped */
};
