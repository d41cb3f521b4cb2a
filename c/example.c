/* A firmware main loop in miniature: messages come in, replies go out, events are told to the table. */
#include <stdio.h>
#include <string.h>
#include <tdisp.h>

static uint8_t table[2 * 256]; /* two interfaces, requesters 0100h and 0101h, in CONFIG_UNLOCKED */
static uint8_t streams[32];    /* stream 3 is secure */

static void send(const uint8_t *message, size_t length) {
    for (size_t i = 0; i < length; i++)
        printf("%02x%s", message[i], i + 1 < length ? " " : "\n");
}

/* One message of a requester, over session 1. A real card draws fresh random bytes for each call. */
static void receive(const uint8_t *message, size_t length) {
    uint8_t reply[256], nonce[32];
    memset(nonce, 0x5a, sizeof nonce);
    struct tdisp_answer a = tdisp_respond(message, length, reply, sizeof reply, table, sizeof table, nonce, sizeof nonce, 1,
        streams, sizeof streams, 1);
    if (a.number == 0)
        send(reply, a.length);
    else
        printf("refused: %u\n", (unsigned)a.number);
}

int main(void) {
    static const uint8_t state[16] = {0x10, 0x85, 0, 0, 0x00, 0x01};
    static const uint8_t lock[36] = {0x10, 0x83, 0, 0, 0x00, 0x01, [18] = 3};
    uint8_t start[48] = {0x10, 0x86, 0, 0, 0x00, 0x01};
    memset(start + 16, 0x5a, 32);
    table[1] = 1;
    table[256] = 1;
    table[257] = 1;
    streams[0] = 1 << 3;
    receive(lock, sizeof lock);
    receive(start, sizeof start);
    receive(state, sizeof state);
    struct tdisp_moved m = tdisp_stream_down(table, sizeof table, 3);
    printf("stream 3 down: %u moved\n", (unsigned)m.count);
    receive(state, sizeof state);
    printf("firmware update: %s\n", tdisp_firmware(table, sizeof table).yes ? "yes" : "no");
    return 0;
}
