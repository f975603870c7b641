/* The system calls and invocations of microsys, for threads that are written in C.
 *
 * Each function is one ECALL, put in line at its call; docs/MANUAL.md, "System calls" and "Invocations", says what the
 * kernel does with it. Capabilities are named by an address, which is the number of a slot for a thread with guard word
 * 28 and a CNode of 16 slots. The verifier wants each capability, and each word of an invocation, to be one known value
 * at its call: give constants.
 *
 * docs/FROM_C.md says how such C becomes a text that can be certified, built, verified and run. `host/microsys.h` is this
 * header for the machine that it is tested on.
 */
#ifndef MICROSYS_H
#define MICROSYS_H

#include <stdint.h>

#define MICROSYS_INLINE static inline __attribute__((always_inline))

/* A thread's function, which must not return: `THREAD control(void) { for (;;) { .. } }`. Its name is the label at which
 * the thread starts, so it is written in lower case. What it calls in its file is put in line by the compiler, which is
 * not told that the function never returns: else it would leave the return out, and not say so. */
#ifdef MICROSYS_NEVER_RETURNS
#define THREAD __attribute__((noreturn, flatten)) void
#else
#define THREAD __attribute__((flatten)) void
#endif

/* --- Capabilities --------------------------------------------------------------------------------------------- */

/* The slots of a notification, of an endpoint, and of an interrupt's handler. They do not convert to one another, nor
 * to numbers: a door where a bell is meant does not compile. The names of a description (`CAP_..`) are of these types;
 * all other capabilities are the numbers of their slots. */
struct bell {
    uint32_t slot;
};
struct door {
    uint32_t slot;
};
struct line {
    uint32_t slot;
};

/* What a thread has put into a slot by itself, as by `untyped_retype`. */
MICROSYS_INLINE struct bell bell_at(uint32_t slot) {
    return (struct bell){slot};
}
MICROSYS_INLINE struct door door_at(uint32_t slot) {
    return (struct door){slot};
}
MICROSYS_INLINE struct line line_at(uint32_t slot) {
    return (struct line){slot};
}

/* --- Memory and values ---------------------------------------------------------------------------------------- */

/* The words of a page that the system maps at a known address, as `words_at(0x3000)[0]`. Each use is one load or store,
 * in the order of the program, as memory that threads share wants it. */
#define words_at(address) ((volatile uint32_t *)(address))
/* The same by bytes. */
#define bytes_at(address) ((volatile uint8_t *)(address))

/* The value where it is below the limit, and else 0. It shows the verifier a limit that it cannot know by itself, as of
 * what is loaded or of a remainder. The compiler drops a test that it knows to be true, or joins it with another; it
 * does not see through this one. */
MICROSYS_INLINE uint32_t below(uint32_t limit, uint32_t value) {
    __asm__("" : "+r"(value));
    if (value >= limit)
        value = 0;
    __asm__("" : "+r"(value));
    return value;
}

/* The first statement of a loop's body whose turns the verifier cannot count: `while (*s) { AT_MOST(48); .. }`. The turns
 * are counted at run time from the loop's beginning on, by two instructions each; one more than said stops the thread, as
 * a failed `assert` does. The number is a constant below 2^20. */
#ifdef __riscv
#define AT_MOST(turns) __asm__ volatile("lui x0, %0" : : "i"(turns))
#else
#define AT_MOST(turns) ((void)(turns))
#endif

/* --- Products and quotients --------------------------------------------------------------------------------------- */

/* RV32I has no instructions for these. `a * b`, `a / b` and `a % b` are calls of the same loops, but a call costs the
 * compiler registers; where it runs out of them, and keeps a counter or an address on the stack, the verifier knows
 * nothing of it any more. */

/* The low word of the product, in 32 rounds. */
MICROSYS_INLINE uint32_t product(uint32_t a, uint32_t b) {
    uint32_t sum = 0;
    for (uint32_t bit = 0; bit < 32; bit++) {
        if (b & 1)
            sum += a;
        a <<= 1;
        b >>= 1;
    }
    return sum;
}

/* Both results of a division. */
struct division {
    uint32_t quotient, remainder;
};

/* Long division, a bit in each of 32 rounds. By 0 the quotient is all ones and the remainder the dividend, as of
 * RISC-V's instructions. */
MICROSYS_INLINE struct division division(uint32_t dividend, uint32_t divisor) {
    uint32_t quotient = 0, remainder = 0;
    for (uint32_t bit = 0; bit < 32; bit++) {
        uint32_t above = remainder >> 31;
        remainder = remainder << 1 | dividend >> 31;
        dividend <<= 1;
        quotient <<= 1;
        if (above || remainder >= divisor) {
            remainder -= divisor;
            quotient |= 1;
        }
    }
    return (struct division){quotient, remainder};
}

/* --- Messages ------------------------------------------------------------------------------------------------- */

/* A message of 0 to 8 words; between threads with buffers of up to 120, of which the first 8 are here. */
struct message {
    uint32_t badge;    /* of the sender's capability; a receive sets it, and a send does not look at it */
    uint32_t label;    /* below 2^20: what the two have agreed on */
    uint32_t length;   /* how many words count, 0 to 8, or to 120 */
    uint32_t words[8]; /* word 0 in a2, .., word 3 in a5, word 4 in s2, .., word 7 in s5 */
};

/* A message to be sent: `MESSAGE(7)` has label 7 and no words, `MESSAGE(0, a, b)` label 0 and two. */
#define MESSAGE(name, ...)                                                                                             \
    ((struct message){.label = (name),                                                                                 \
                      .length = sizeof((uint32_t[]){__VA_ARGS__}) / sizeof(uint32_t),                                  \
                      .words = {__VA_ARGS__}})

#ifdef MICROSYS_BUFFER
/* A thread with a line `buffer FRAME`, which has the frame mapped, sends and receives up to 120 words. Words from the
 * eighth on are in the buffer: a receive writes them there, and a send takes them from there. */
enum { MOST_WORDS = 120, WORDS_IN_REGISTERS = 8 };

/* Word 8 to 119 of the message that was received, or that is sent next. */
#define buffer_word(number) (words_at(MICROSYS_BUFFER)[number])

#define MICROSYS_WORD_OF(number) ((number) < length ? words[number] : 0)
/* A message of the first `length` words of an array, 0 to 120. Words from the eighth on are put into the buffer, so it
 * is the next to be sent. */
MICROSYS_INLINE struct message message_of(uint32_t label, const uint32_t *words, uint32_t length) {
    for (uint32_t i = WORDS_IN_REGISTERS; i < length; i++)
        buffer_word(i) = words[i];
    return (struct message){.label = label,
                            .length = length,
                            .words = {MICROSYS_WORD_OF(0), MICROSYS_WORD_OF(1), MICROSYS_WORD_OF(2),
                                      MICROSYS_WORD_OF(3), MICROSYS_WORD_OF(4), MICROSYS_WORD_OF(5),
                                      MICROSYS_WORD_OF(6), MICROSYS_WORD_OF(7)}};
}

/* Puts the words of a message that was received last into an array of `limit` words, 0 to 120. Gives how many there are,
 * at most the limit; the words after them stay. */
MICROSYS_INLINE uint32_t words_of(struct message message, uint32_t *words, uint32_t limit) {
    uint32_t length = message.length < limit ? message.length : limit;
#pragma GCC unroll 8
    for (uint32_t i = 0; i < WORDS_IN_REGISTERS; i++)
        if (i < length)
            words[i] = message.words[i];
    for (uint32_t i = WORDS_IN_REGISTERS; i < length; i++)
        words[i] = buffer_word(i);
    return length;
}
#else
#define MICROSYS_NO_BUFFER                                                                                             \
    __attribute__((error("there is no message buffer: a line `buffer FRAME` of the thread is missing, or the frame is "  \
                         "mapped nowhere")))
MICROSYS_NO_BUFFER struct message message_of(uint32_t label, const uint32_t *words, uint32_t length);
MICROSYS_NO_BUFFER uint32_t words_of(struct message message, uint32_t *words, uint32_t limit);
MICROSYS_NO_BUFFER volatile uint32_t *microsys_buffer_word(uint32_t number);
#define buffer_word(number) (*microsys_buffer_word(number))
#endif

/* --- Names of numbers ------------------------------------------------------------------------------------------- */

/* What Call answers of an invocation. In an accepted system it is always DONE. */
enum error {
    DONE = 0,
    INVALID_ARGUMENT = 1,
    INVALID_CAPABILITY = 2,
    ILLEGAL_OPERATION = 3,
    RANGE_ERROR = 4,
    ALIGNMENT_ERROR = 5,
    FAILED_LOOKUP = 6,
    TRUNCATED_MESSAGE = 7,
    DELETE_FIRST = 8,
    REVOKE_FIRST = 9,
    NOT_ENOUGH_MEMORY = 10,
};

/* The types that an accepted thread may retype memory to. */
enum object_type {
    ENDPOINT = 3,     /* 16 bytes */
    NOTIFICATION = 4, /* 16 bytes */
    FRAME = 6,        /* 4096 bytes */
};

/* Rights, to be joined by `|`: of a capability the first three, of a mapping WRITE and READ. */
enum rights {
    WRITE = 1,
    READ = 2,
    GRANT_REPLY = 8,
};

/* The two words that name a slot: its address, and how many bits of the address count. */
struct slot {
    uint32_t address;
    uint32_t bits;
};

MICROSYS_INLINE uint32_t microsys_slot_of_bell(struct bell bell) {
    return bell.slot;
}
MICROSYS_INLINE uint32_t microsys_slot_of_door(struct door door) {
    return door.slot;
}
MICROSYS_INLINE uint32_t microsys_slot_of_line(struct line line) {
    return line.slot;
}
MICROSYS_INLINE uint32_t microsys_slot_of_number(uint32_t index) {
    return index;
}

/* A slot of the thread's own CNode, and by CNode capabilities with guard word 28 a slot of that CNode: of a bell, a
 * door, a line or a number. */
#define slot(of)                                                                                                       \
    ((struct slot){.address = _Generic((of),                                                                           \
         struct bell: microsys_slot_of_bell,                                                                           \
         struct door: microsys_slot_of_door,                                                                           \
         struct line: microsys_slot_of_line,                                                                           \
         default: microsys_slot_of_number)(of),                                                                        \
                   .bits = 32})

/* For Retype: the thread's own CNode. */
#define OWN_CNODE ((struct slot){.address = 0, .bits = 0})

/* --- How a call is made ------------------------------------------------------------------------------------------ */

#ifdef __riscv

/* a0: the capability; a1: the number of words and the label; a2 to a5 and s2 to s5: the words; a7: the call's number.
 * Each says to the compiler all that its call may write by any capability. */
#define MICROSYS_WORD(number, name, message)                                                                           \
    register uint32_t name __asm__(#name);                                                                             \
    if (!__builtin_constant_p((message).length) || (message).length > (number))                                        \
        name = (message).words[number]
#define MICROSYS_WORDS(message)                                                                                        \
    MICROSYS_WORD(0, a2, message);                                                                                     \
    MICROSYS_WORD(1, a3, message);                                                                                     \
    MICROSYS_WORD(2, a4, message);                                                                                     \
    MICROSYS_WORD(3, a5, message);                                                                                     \
    MICROSYS_WORD(4, s2, message);                                                                                     \
    MICROSYS_WORD(5, s3, message);                                                                                     \
    MICROSYS_WORD(6, s4, message);                                                                                     \
    MICROSYS_WORD(7, s5, message)
#define MICROSYS_HEAD(number, capability, information)                                                                 \
    register uint32_t a7 __asm__("a7") = (number);                                                                     \
    register uint32_t a0 __asm__("a0") = (capability);                                                                 \
    register uint32_t a1 __asm__("a1") = (information)

#pragma GCC diagnostic push
/* A word that the message does not have is left as it is. */
#pragma GCC diagnostic ignored "-Wuninitialized"
#pragma GCC diagnostic ignored "-Wmaybe-uninitialized"

MICROSYS_INLINE uint32_t microsys_information(struct message message) {
    return message.label << 12 | message.length;
}

/* A call that writes no register: Send, NBSend and Reply. */
MICROSYS_INLINE void microsys_give(uint32_t number, uint32_t capability, struct message message) {
    MICROSYS_WORDS(message);
    MICROSYS_HEAD(number, capability, microsys_information(message));
    __asm__ volatile("ecall"
                     :
                     : "r"(a7), "r"(a0), "r"(a1), "r"(a2), "r"(a3), "r"(a4), "r"(a5), "r"(s2), "r"(s3), "r"(s4), "r"(s5)
                     : "memory");
}

/* A call that gives a message and takes one: Call and ReplyRecv. */
MICROSYS_INLINE struct message microsys_exchange(uint32_t number, uint32_t capability, struct message message) {
    MICROSYS_WORDS(message);
    MICROSYS_HEAD(number, capability, microsys_information(message));
    __asm__ volatile("ecall"
                     : "+r"(a0), "+r"(a1), "+r"(a2), "+r"(a3), "+r"(a4), "+r"(a5), "+r"(s2), "+r"(s3), "+r"(s4),
                       "+r"(s5)
                     : "r"(a7)
                     : "memory");
    return (struct message){a0, a1 >> 12, a1 & 127, {a2, a3, a4, a5, s2, s3, s4, s5}};
}

#pragma GCC diagnostic pop

/* A call that takes a message: Recv and NBRecv. */
MICROSYS_INLINE struct message microsys_take(uint32_t number, uint32_t capability) {
    register uint32_t a7 __asm__("a7") = number;
    register uint32_t a0 __asm__("a0") = capability;
    register uint32_t a1 __asm__("a1");
    register uint32_t a2 __asm__("a2");
    register uint32_t a3 __asm__("a3");
    register uint32_t a4 __asm__("a4");
    register uint32_t a5 __asm__("a5");
    register uint32_t s2 __asm__("s2");
    register uint32_t s3 __asm__("s3");
    register uint32_t s4 __asm__("s4");
    register uint32_t s5 __asm__("s5");
    __asm__ volatile("ecall"
                     : "+r"(a0), "=r"(a1), "=r"(a2), "=r"(a3), "=r"(a4), "=r"(a5), "=r"(s2), "=r"(s3), "=r"(s4),
                       "=r"(s5)
                     : "r"(a7)
                     : "memory");
    return (struct message){a0, a1 >> 12, a1 & 127, {a2, a3, a4, a5, s2, s3, s4, s5}};
}

/* Send on a notification. */
MICROSYS_INLINE void microsys_ring(uint32_t capability) {
    register uint32_t a7 __asm__("a7") = 3;
    register uint32_t a0 __asm__("a0") = capability;
    __asm__ volatile("ecall" : : "r"(a7), "r"(a0) : "memory");
}

/* Yield. */
MICROSYS_INLINE void microsys_yield(void) {
    register uint32_t a7 __asm__("a7") = 7;
    __asm__ volatile("ecall" : : "r"(a7) : "memory");
}

/* PutChar. */
MICROSYS_INLINE void microsys_put(uint8_t byte) {
    register uint32_t a7 __asm__("a7") = 9;
    register uint32_t a0 __asm__("a0") = byte;
    __asm__ volatile("ecall" : : "r"(a7), "r"(a0));
}

#else

/* The kernel, as who tests has it: what it answers to the call of that number, by the capability of that slot. */
struct message microsys_call(uint32_t number, uint32_t capability, struct message message);

MICROSYS_INLINE void microsys_give(uint32_t number, uint32_t capability, struct message message) {
    (void)microsys_call(number, capability, message);
}
MICROSYS_INLINE struct message microsys_exchange(uint32_t number, uint32_t capability, struct message message) {
    return microsys_call(number, capability, message);
}
MICROSYS_INLINE struct message microsys_take(uint32_t number, uint32_t capability) {
    return microsys_call(number, capability, (struct message){.label = 0});
}
MICROSYS_INLINE void microsys_ring(uint32_t capability) {
    (void)microsys_call(3, capability, (struct message){.label = 0});
}
MICROSYS_INLINE void microsys_yield(void) {
    (void)microsys_call(7, 0, (struct message){.label = 0});
}
MICROSYS_INLINE void microsys_put(uint8_t byte) {
    (void)microsys_call(9, byte, (struct message){.label = 0});
}

#endif

/* Call on a capability that is neither door nor bell: the answer is 4096 times the error in a1. */
MICROSYS_INLINE enum error microsys_invoke(uint32_t capability, struct message message) {
    return (enum error)microsys_exchange(1, capability, message).label;
}

/* --- System calls on endpoints ------------------------------------------------------------------------------------ */

/* Call (1): sends the request, and waits for the reply, which it gives back. The capability needs WRITE and
 * GRANT_REPLY. A wait: the thread has its whole budget behind it. */
MICROSYS_INLINE struct message sys_call(struct door door, struct message request) {
    return microsys_exchange(1, door.slot, request);
}

/* ReplyRecv (2): answers whoever called last, and waits for the next message. The capability needs READ. A wait. */
MICROSYS_INLINE struct message sys_reply_recv(struct door door, struct message answer) {
    return microsys_exchange(2, door.slot, answer);
}

/* Send (3): waits until a receiver takes the message. The capability needs WRITE. A wait. */
MICROSYS_INLINE void sys_send(struct door door, struct message message) {
    microsys_give(3, door.slot, message);
}

/* NBSend (4): sends the message if a receiver waits for it; else nothing comes of it. The capability needs WRITE. */
MICROSYS_INLINE void sys_nb_send(struct door door, struct message message) {
    microsys_give(4, door.slot, message);
}

/* Recv (5): waits for a message. The capability needs READ. A wait. */
MICROSYS_INLINE struct message sys_recv(struct door door) {
    return microsys_take(5, door.slot);
}

/* Reply (6): answers whoever called last; nothing comes of it where nobody waits for an answer. */
MICROSYS_INLINE void sys_reply(struct message answer) {
    microsys_give(6, 0, answer);
}

/* NBRecv (8): takes a message if a sender waits. Else the badge is 0, and the rest means nothing; so give senders
 * badges. The capability needs READ. */
MICROSYS_INLINE struct message sys_nb_recv(struct door door) {
    return microsys_take(8, door.slot);
}

/* --- System calls on notifications -------------------------------------------------------------------------------- */

/* Send (3): joins the capability's badge to the notification's word, and wakes who waits for it. The capability needs
 * WRITE. No wait. */
MICROSYS_INLINE void sys_signal(struct bell bell) {
    microsys_ring(bell.slot);
}

/* Recv (5): waits for a signal, and takes the notification's word, the badges joined by `|`. The capability needs READ.
 * A wait. */
MICROSYS_INLINE uint32_t sys_wait(struct bell bell) {
    return microsys_take(5, bell.slot).badge;
}

/* NBRecv (8): takes the notification's word, which is 0 where there was no signal. The capability needs READ. */
MICROSYS_INLINE uint32_t sys_poll(struct bell bell) {
    return microsys_take(8, bell.slot).badge;
}

/* --- The others --------------------------------------------------------------------------------------------------- */

/* Yield (7): the thread goes to the end of its priority's turn. */
MICROSYS_INLINE void sys_yield(void) {
    microsys_yield();
}

/* PutChar (9): the byte goes to the trace. */
MICROSYS_INLINE void sys_put_char(uint8_t byte) {
    microsys_put(byte);
}

MICROSYS_INLINE void microsys_put_text(uint32_t length, const char *text) {
    for (uint32_t i = 0; i < length; i++) {
        if (text[i] == 0)
            break;
        sys_put_char(text[i]);
    }
}

/* Puts the characters of a literal or of an array, up to the first that is 0: `put_text("ready\n")`. The length of a
 * pointer's text is not known, so a pointer does not compile. */
#define put_text(text)                                                                                                 \
    microsys_put_text(sizeof(text) + 0 * sizeof(struct {                                                               \
                          _Static_assert(!__builtin_types_compatible_p(__typeof__(text), __typeof__(&(text)[0])),        \
                                         "put_text takes a literal or an array, and not a pointer");                   \
                          int unused;                                                                                  \
                      }),                                                                                              \
                      (text))

/* --- Invocations -------------------------------------------------------------------------------------------------- */

/* Retype (label 1, 6 words) of untyped memory: objects of the type, as many as `count` says, 1 to 256, with their
 * capabilities from slot `first` of the CNode on. Accepted threads make the three types of `enum object_type`, and of
 * these `size` is 0. */
MICROSYS_INLINE enum error untyped_retype(uint32_t untyped, enum object_type type, uint32_t size, struct slot cnode,
                                          uint32_t first, uint32_t count) {
    return microsys_invoke(untyped, MESSAGE(1, type, size, cnode.address, cnode.bits, first, count));
}

/* Copy (label 7, 5 words): the slot `to` of the CNode gets a child of what `from` of the thread's own slots holds, with
 * those of its rights that are in `rights`. A frame's copy is not mapped. */
MICROSYS_INLINE enum error cnode_copy(uint32_t cnode, struct slot to, struct slot from, uint32_t rights) {
    return microsys_invoke(cnode, MESSAGE(7, to.address, to.bits, from.address, from.bits, rights));
}

/* Mint (label 8, 6 words): as Copy, and an endpoint's or notification's copy has the badge, below 2^28. */
MICROSYS_INLINE enum error cnode_mint(uint32_t cnode, struct slot to, struct slot from, uint32_t rights,
                                      uint32_t badge) {
    return microsys_invoke(cnode, MESSAGE(8, to.address, to.bits, from.address, from.bits, rights, badge));
}

/* Move (label 9, 4 words): from one slot to another, with its mapping and its children. */
MICROSYS_INLINE enum error cnode_move(uint32_t cnode, struct slot to, struct slot from) {
    return microsys_invoke(cnode, MESSAGE(9, to.address, to.bits, from.address, from.bits));
}

/* Delete (label 11, 2 words): empties the slot. Its children become its parent's. */
MICROSYS_INLINE enum error cnode_delete(uint32_t cnode, struct slot of) {
    return microsys_invoke(cnode, MESSAGE(11, of.address, of.bits));
}

/* Revoke (label 12, 2 words): takes all that descends from the slot's capability; untyped memory is whole again. */
MICROSYS_INLINE enum error cnode_revoke(uint32_t cnode, struct slot of) {
    return microsys_invoke(cnode, MESSAGE(12, of.address, of.bits));
}

/* Map (label 13, 4 words) of a frame under the root table in the slot, at an address that is a multiple of 4096 and has
 * a page table, with READ or READ | WRITE. */
MICROSYS_INLINE enum error frame_map(uint32_t frame, struct slot root, uint32_t address, uint32_t rights) {
    return microsys_invoke(frame, MESSAGE(13, root.address, root.bits, address, rights));
}

/* Unmap (label 14, no words) of a frame. */
MICROSYS_INLINE enum error frame_unmap(uint32_t frame) {
    return microsys_invoke(frame, MESSAGE(14));
}

/* Ack (label 18, no words): lets the handler's interrupt line signal again. A driver says it before it waits. */
MICROSYS_INLINE enum error handler_ack(struct line line) {
    return microsys_invoke(line.slot, MESSAGE(18));
}

#endif
