/* The C interface for hosts, called through the header: every function and every number of the collector, and reports collected from the responder.
 * What must come is built here from the paper's text. After every reply the number, the whole collector and what is told of it are compared.
 * It uses both headers and both archives, and is built twice: in one order and, with TURNED, in the other. */
#ifdef TURNED
#include <tdisp.h>
#include <tdisp_host.h>
#else
#include <tdisp_host.h>
#include <tdisp.h>
#endif
#include "cases.h"

/* the layout that others link to; none of the three has a gap */
_Static_assert(sizeof(struct tdisp_collector) == 216 && offsetof(struct tdisp_collector, held) == 4
    && offsetof(struct tdisp_collector, total) == 8 && offsetof(struct tdisp_collector, begun) == 12
    && offsetof(struct tdisp_collector, bytes) == 16, "tdisp_collector");
_Static_assert(sizeof(struct tdisp_taken) == 220 && offsetof(struct tdisp_taken, collector) == 4, "tdisp_taken");
_Static_assert(sizeof(struct tdisp_whole) == 204 && offsetof(struct tdisp_whole, bytes) == 4, "tdisp_whole");

/* The interface whose report is collected, and bytes that all differ to stand for one. */
static const uint32_t id = 0x1ff0100;
static uint8_t report[236];

/* ---- What a collector does, by the paper ---- */

static struct tdisp_collector now;

/* What it says of itself: the OFFSET to ask for, whether all is there, the bytes so far. */
static int tells(void) {
    struct tdisp_whole w = tdisp_collector_bytes(now);
    return tdisp_collector_next(now) == now.held && tdisp_collector_finished(now) == (now.begun && now.held == now.total)
        && w.length == (now.held < 200 ? now.held : 200) && !memcmp(w.bytes, now.bytes, 200);
}

/* A reply is given: the number is as wanted; taken, its portion stands behind the bytes held, and refused, no byte is another. */
static int gives(const uint8_t *reply, size_t length, uint32_t number) {
    struct tdisp_collector wanted = now;
    if (number == 0) {
        memcpy(wanted.bytes + now.held, reply + 20, length - 20);
        wanted.held += (uint32_t)length - 20;
        wanted.total = wanted.held + reply[18] + 256u * reply[19];
        wanted.begun = 1;
    }
    struct tdisp_taken t = tdisp_collector_take(now, reply, length);
    now = t.collector;
    return t.number == number && !memcmp(&now, &wanted, sizeof now) && tells();
}

static void given(const char *name, struct message m, uint32_t number) { check(name, gives(m.bytes, m.length, number)); }

static void fresh(void) {
    const struct tdisp_collector wanted = {.function_id = id};
    now = tdisp_collector_new(id);
    check("new", !memcmp(&now, &wanted, sizeof now) && tells());
}

/* A reply that says this portion and remainder; the portion is of the report, from what is held on. */
static struct message of(uint16_t portion, uint16_t remainder) {
    uint8_t payload[4 + sizeof report];
    put(payload, portion, 2), put(payload + 2, remainder, 2);
    memcpy(payload + 4, report + now.held, portion);
    return message(0x04, id, payload, 4 + (size_t)portion);
}

/* The same reply with another byte, or with another length. */
static struct message with(struct message m, int place, uint8_t byte) { return m.bytes[place] = byte, m; }
static struct message cut(struct message m, size_t length) { return m.length = length, m; }

/* ---- Cases ---- */

static void totals(void) {
    fresh();
    given("0/200 first: the total is fixed", of(0, 200), 0);
    given("0/150 then: different", of(0, 150), 33);
    given("0/201 then: different, not over", of(0, 201), 33);
    given("0/200 again", of(0, 200), 0);
    fresh();
    const struct message front = of(128, 72);
    given("128/72", front, 0);
    given("128/72 twice: different", front, 33);
    given("72/0: finished", of(72, 0), 0);
    check("200 bytes, as the report has them", tdisp_collector_finished(now) == 1 && !memcmp(tdisp_collector_bytes(now).bytes, report, 200));
    given("0/0 behind the last: taken, and nothing changes", of(0, 0), 0);
    given("1/0 behind the last: different", of(1, 0), 33);
    fresh();
    given("128/73 first: over 200", of(128, 73), 34);
    given("a refused reply fixed nothing: 20/0", of(20, 0), 0);
    check("finished", tdisp_collector_finished(now) == 1);
}

static void nothing_at_all(void) {
    fresh();
    given("0/0 first", of(0, 0), 0);
    struct tdisp_whole w = tdisp_collector_bytes(now);
    check("finished at 0 bytes, and the reader says 20", tdisp_collector_finished(now) == 1 && tdisp_read_report(w.bytes, w.length).number == 20);
    given("20/0 then: different", of(20, 0), 33);
}

static void not_taken(void) {
    fresh();
    given("20/30", of(20, 30), 0);
    check("no bytes: 30", gives(nowhere, 0, 30));
    given("19 bytes: 30", cut(of(0, 30), 19), 30);
    given("TDISP_ERROR: 30", message(0x7f, id, "\1\0\0\0\0\0\0", 8), 30);
    given("type 05h: 30", with(of(10, 20), 1, 0x05), 30);
    given("version 11h: 30", with(of(10, 20), 0, 0x11), 30);
    given("version 11h of another interface: 30", with(with(of(10, 20), 0, 0x11), 4, 1), 30);
    given("another requester: 31", with(of(10, 20), 4, 1), 31);
    given("another segment: 31", with(of(10, 20), 6, 0xfe), 31);
    given("no segment: 31", with(of(10, 20), 7, 0), 31);
    given("another interface, and a wrong length: 31", cut(with(of(10, 20), 4, 1), 31), 31);
    given("portion 10 in 31 bytes: 32", cut(of(10, 20), 31), 32);
    given("portion 10 in 29 bytes: 32", cut(of(10, 20), 29), 32);
    given("a wrong length, and a different total: 32", cut(of(10, 21), 31), 32);
    given("a total under the one before: 33", of(10, 19), 33);
    given("a total over the one before: 33", of(10, 21), 33);
    given("a total over 200, and over the one before: 33", of(10, 200), 33);
    given("reserved bytes are not looked at", with(with(of(10, 20), 2, 0xff), 15, 0xff), 0);
    given("nor are bits 31:25", with(of(10, 10), 7, 0xff), 0);
    given("the rest", of(10, 0), 0);
    check("as the report has them", tdisp_collector_finished(now) == 1 && !memcmp(tdisp_collector_bytes(now).bytes, report, 50));
    now = tdisp_collector_new(0xfeff0100);
    given("a segment that is not valid is not looked at", with(with(of(10, 0), 6, 0), 7, 0), 0);
}

/* Totals that would be small in 16 bits. */
static void wide_totals(void) {
    static uint8_t reply[20 + 65535];
    fresh();
    given("128 + 65,535", of(128, 65535), 34);
    given("1 + 65,535", of(1, 65535), 34);
    memcpy(reply, of(0, 65535).bytes, 20), put(reply + 16, 65535, 2);
    check("65,535 + 65,535", gives(reply, sizeof reply, 34));
    put(reply + 18, 1, 2);
    check("65,535 + 1", gives(reply, sizeof reply, 34));
}

/* However the report is cut. */
static void cuts(void) {
    static const uint16_t sizes[] = {1, 7, 20, 127, 128, 199, 200};
    for (size_t i = 0; i < sizeof sizes / sizeof sizes[0]; i++) {
        uint16_t total = i == 2 ? 20 : 200, left = total;
        int right = 1;
        fresh();
        for (uint16_t size = sizes[i]; left; left -= size) {
            size = size < left ? size : left;
            right &= !tdisp_collector_finished(now) && gives(of(0, left).bytes, 20, 0);
            struct message m = of(size, (uint16_t)(left - size));
            right &= gives(m.bytes, m.length, 0);
        }
        check("cut", right && tdisp_collector_finished(now) == 1 && now.held == total && !memcmp(now.bytes, report, total));
    }
}

/* Every value of a collector is legal, also those that no run leads to; the sums pass 2^16 and 2^32. */
static void made_up(void) {
    static const uint32_t helds[] = {0, 1, 127, 199, 200, 201, 0x10000, 0x7fffffff, 0xffffff38, 0xffffffff};
    static const uint32_t sums[] = {0, 1, 128, 199, 200, 201, 0x10000, 0xffffffff}, marks[] = {0, 1, 2, 0x100, 0x80000000, 0xffffffff};
    static const uint16_t said[][2] = {{0, 0}, {0, 1}, {1, 0}, {1, 72}, {127, 1}, {73, 0}, {200, 0}, {201, 0}, {0, 65535}, {128, 65535}};
    int right = 1, seen[35] = {0};
    for (int i = 0; i < 10 * 8 * 6 * 10; i++) {
        const uint16_t *s = said[i % 10];
        now = tdisp_collector_new(id);
        const struct message m = of(s[0], s[1]);
        now.held = helds[i / 10 % 10], now.total = sums[i / 100 % 8], now.begun = marks[i / 800];
        memset(now.bytes, 0xcd, 200);
        uint64_t total = (uint64_t)now.held + s[0] + s[1];
        uint32_t number = now.begun && total != now.total ? 33 : total > 200 ? 34 : 0;
        right &= tells() && gives(m.bytes, m.length, number);
        seen[number]++;
    }
    check("4,800 made-up cases", right && seen[0] && seen[33] && seen[34]);
}

/* ---- Reports, collected from the responder ---- */

static uint8_t table[256];

static struct message asks(struct message m) {
    static const uint8_t nonce[32], streams[32] = {1};
    struct message reply = {0, {0}};
    reply.length = tdisp_respond(m.bytes, m.length, reply.bytes, 256, table, 256, nonce, 32, 1, streams, 32, 9).length;
    return reply;
}

static int asked(uint8_t type, const void *payload, size_t length) { return asks(message(type, id, payload, length)).bytes[1] == type - 0x80; }

/* Locks, asks at each OFFSET that the collector says for this LENGTH until it is finished, starts behind the first reply, and stops: whether every
 * reply is taken and there are so many of them. */
static int collects(uint16_t length, int replies) {
    static const uint8_t lock[20] = {4}, nonce[32];
    int right = asked(0x83, lock, 20), count = 0;
    for (now = tdisp_collector_new(id); right && !tdisp_collector_finished(now); count++) {
        uint8_t payload[4];
        put(payload, tdisp_collector_next(now), 2), put(payload + 2, length, 2);
        const struct message reply = asks(message(0x84, id, payload, 4));
        right = count < replies && gives(reply.bytes, reply.length, 0) && (count > 0 || asked(0x86, nonce, 32));
    }
    return right && count == replies && asked(0x87, "", 0);
}

/* What is held, read: the fields are those of the record, which a lock with LOCK_MSIX and offset 0 shows as they are. */
static void read_back(const struct tdisp_report *wanted, uint32_t total) {
    struct tdisp_whole w = tdisp_collector_bytes(now);
    struct tdisp_report r = tdisp_read_report(w.bytes, w.length);
    check("the report, read, is the record's", w.length == total && same_fields(&r, wanted));
}

static void from_the_responder(void) {
    static const struct tdisp_report none;
    struct tdisp_report all = {.info = 0x1e, .msix = 0x8123, .lnr = 0x9456, .tph = 0xa789abcd, .n = 8, .l = 52};
    put(table, id, 4);
    check("N = 0, L = 0: one portion of 20", collects(65535, 1));
    read_back(&none, 20);
    check("20 of 1", collects(1, 20));
    read_back(&none, 20);
    informed(table);
    memcpy(all.information, table + 204, 52);
    for (int k = 0; k < 8; k++) {
        struct tdisp_range *r = all.ranges + k;
        *r = (struct tdisp_range){0x1020304050 + 0x100000000 * (uint64_t)k, 0x1020304 + (uint32_t)k, (uint16_t)(15 - k), (uint16_t)(0x900 + k)};
        range(table, r->first, r->pages, r->attributes, r->id);
    }
    check("8 ranges, 52 bytes of information: 200 of 1", collects(1, 200));
    read_back(&all, 200);
    check("28 of 7 and the rest", collects(7, 29));
    read_back(&all, 200);
    check("128 and the rest", collects(128, 2));
    read_back(&all, 200);
    check("as much as there is, twice", collects(65535, 2));
    read_back(&all, 200);
}

int main(void) {
    for (size_t i = 0; i < sizeof report; i++)
        report[i] = (uint8_t)(i + 1);
    totals();
    nothing_at_all();
    not_taken();
    wide_totals();
    cuts();
    made_up();
    from_the_responder();
    printf("c, for hosts: %d passed, %d failed\n", passed, failed);
    return failed != 0;
}
