/* SLIP (RFC 1055): a packet is sent, and what is sent is received again. */
#include "microsys.h"

enum { END = 0xC0, ESC = 0xDB, ESC_END = 0xDC, ESC_ESC = 0xDD };

static const uint8_t packet[] = {1, 2, END, 3, ESC, 4, ESC_END};
static uint8_t received[8];
static unsigned length;
static int escaped;

static void receive(uint8_t byte) {
    if (byte == END) {
        if (length > 0) {
            for (unsigned i = 0; i < length; i++)
                sys_put_char(received[i]);
            length = 0;
        }
        return;
    }
    if (byte == ESC) {
        escaped = 1;
        return;
    }
    if (escaped) {
        byte = byte == ESC_END ? END : byte == ESC_ESC ? ESC : byte;
        escaped = 0;
    }
    if (length < sizeof received)
        received[length++] = byte;
}

static void send(uint8_t byte) {
    sys_put_char(byte);
    receive(byte);
}

THREAD main(void) {
    for (;;) {
        sys_wait(CAP_BELL);
        send(END);
        for (unsigned i = 0; i < sizeof packet; i++) {
            switch (packet[i]) {
            case END:
                send(ESC);
                send(ESC_END);
                break;
            case ESC:
                send(ESC);
                send(ESC_ESC);
                break;
            default:
                send(packet[i]);
            }
        }
        send(END);
        handler_ack(CAP_LINE);
    }
}
