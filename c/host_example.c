/* A host's loop in miniature: a report is asked for in portions, collected, and read. */
#include <stdio.h>
#include <string.h>
#include <tdisp_host.h>

/* Stands in for the card: a report of one range, pages 16 and 17, in portions of 16 bytes at most. A real host sends the request over its SPDM
 * session and waits for the reply. */
static size_t exchange(const uint8_t request[20], uint8_t *reply) {
    static const uint8_t report[36] = {[12] = 1, [16] = 16, [24] = 2};
    size_t offset = request[16], portion = sizeof report - offset < 16 ? sizeof report - offset : 16;
    memcpy(reply, request, 16);
    reply[1] = 0x04;
    reply[16] = (uint8_t)portion, reply[17] = 0;
    reply[18] = (uint8_t)(sizeof report - offset - portion), reply[19] = 0;
    memcpy(reply + 20, report + offset, portion);
    return 20 + portion;
}

int main(void) {
    struct tdisp_collector c = tdisp_collector_new(0x0100);
    while (!tdisp_collector_finished(c)) {
        uint8_t request[20] = {0x10, 0x84, 0, 0, 0x00, 0x01, [18] = 0xff, [19] = 0xff}, reply[256];
        uint32_t offset = tdisp_collector_next(c);
        request[16] = (uint8_t)offset, request[17] = (uint8_t)(offset >> 8);
        struct tdisp_taken t = tdisp_collector_take(c, reply, exchange(request, reply));
        if (t.number != 0) {
            printf("refused: %u\n", (unsigned)t.number);
            return 1;
        }
        c = t.collector;
        printf("asked at %u: %u of %u bytes are here\n", (unsigned)offset, (unsigned)c.held, (unsigned)c.total);
    }
    struct tdisp_whole w = tdisp_collector_bytes(c);
    struct tdisp_report r = tdisp_read_report(w.bytes, w.length);
    printf("read: %u, %u range, %u pages from page %llu on\n", (unsigned)r.number, (unsigned)r.n, (unsigned)r.ranges[0].pages,
        (unsigned long long)r.ranges[0].first);
    return 0;
}
