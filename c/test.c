/* The C interface, called through the header: the worked lines, every request, every number of every function, every event. What must come is
 * built here from the paper's text. After every call the whole table, the whole reply buffer, bytes past what was lent, and the nonce bytes and
 * stream map are compared with it, whether the call was served or refused. And whether the header's structs are those that the archive uses. */
#include <tdisp.h>
#include "cases.h"

/* the layout that others link to */
_Static_assert(sizeof(struct tdisp_answer) == 8 && offsetof(struct tdisp_answer, length) == 4, "tdisp_answer");
_Static_assert(sizeof(struct tdisp_moved) == 8 && offsetof(struct tdisp_moved, count) == 4, "tdisp_moved");
_Static_assert(sizeof(struct tdisp_yes) == 8 && offsetof(struct tdisp_yes, yes) == 4, "tdisp_yes");

/* What is lent, and what must be there after the next call. Of the table the first `lent` bytes are lent, of the reply buffer 256. */
static uint8_t table[66 * 256], wanted_table[66 * 256], reply[300], wanted_reply[300];
static uint8_t nonce[32], wanted_nonce[32], streams[32], wanted_streams[32];
static size_t lent;

static int as_wanted(void) {
    return !memcmp(table, wanted_table, sizeof table) && !memcmp(reply, wanted_reply, sizeof reply)
        && !memcmp(nonce, wanted_nonce, sizeof nonce) && !memcmp(streams, wanted_streams, sizeof streams);
}

/* ---- Records by the paper's table ---- */

/* The record at a place: 0100h is a requester's number, 010000h a segment's lowest bit, 1000000h says that the segment is valid. */
static uint8_t *record(int place, uint32_t function_id) {
    uint8_t *r = wanted_table + 256 * place;
    memset(r, 0, 256);
    put(r, function_id, 4);
    return r;
}

static void locked(uint8_t *r, uint16_t flags, uint8_t stream, uint8_t session, int64_t offset) {
    r[4] = 1, r[5] = 1, r[8] = stream, r[9] = session;
    put(r + 6, flags, 2), put(r + 24, (uint64_t)offset, 8);
    memcpy(r + 40, wanted_nonce, 32);
}

static void started(uint8_t *r) {
    r[4] = 2, r[5] = 0;
    memset(r + 40, 0, 32);
}

/* "nonce and lock fields are cleared": bytes 40-71, 6-9 and 24-31 */
static void cleared(uint8_t *r, uint8_t state) {
    r[4] = state, r[5] = 0;
    memset(r + 6, 0, 4), memset(r + 24, 0, 8), memset(r + 40, 0, 32);
}

/* ---- What a call gets ---- */

/* The table as it is wanted now is lent, with nonce bytes 00 to 1F, stream 3 secure and a reply buffer of EE. Past it stands CD. */
static void lend(int records) {
    lent = 256 * (size_t)records;
    memset(wanted_table + lent, 0xcd, sizeof wanted_table - lent);
    memcpy(table, wanted_table, sizeof table);
    memset(wanted_reply, 0xee, sizeof reply);
    memcpy(reply, wanted_reply, sizeof reply);
    memcpy(nonce, wanted_nonce, sizeof nonce);
    memcpy(streams, wanted_streams, sizeof streams);
}

static struct message lock(uint32_t function_id, uint16_t flags, uint8_t stream, int64_t offset) {
    uint8_t payload[20] = {0};
    put(payload, flags, 2), payload[2] = stream, put(payload + 4, (uint64_t)offset, 8);
    return message(0x83, function_id, payload, 20);
}

static struct message error(uint32_t function_id, uint32_t code, uint32_t data) {
    uint8_t payload[8];
    put(payload, code, 4), put(payload + 4, data, 4);
    return message(0x7f, function_id, payload, 8);
}

static struct tdisp_answer ask_marked(struct message m, uint8_t ready, uint8_t session) {
    return tdisp_respond(m.bytes, m.length, reply, 256, table, lent, nonce, 32, ready, streams, 32, session);
}

static struct tdisp_answer ask(struct message m) { return ask_marked(m, 1, 9); }

/* Served: the reply stands at the front, all else is as wanted. */
static int replies(struct tdisp_answer a, struct message m) {
    memcpy(wanted_reply, m.bytes, m.length);
    return a.number == 0 && a.length == m.length && as_wanted();
}

static void replied(const char *name, struct tdisp_answer a, struct message m) { check(name, replies(a, m)); }
static int refuses(struct tdisp_answer a, uint32_t number) { return a.number == number && a.length == 0 && as_wanted(); }
static int moves(struct tdisp_moved m, uint32_t number, uint32_t count) { return m.number == number && m.count == count && as_wanted(); }
static int says(struct tdisp_yes y, uint32_t number, uint32_t yes) { return y.number == number && y.yes == yes && as_wanted(); }

/* ---- Requests ---- */

static void worked_lines(void) {
    static const struct message mismatch = {24, {0x10, 0x7f, 0, 0, 0x00, 0x01, 0, 0, 0, 0, 0, 0, 0, 0, 0, 0, 0x41}};
    static const struct message other = {16, {0x11, 0x81, 0, 0, 0x00, 0x01}}, stop = {16, {0x10, 0x87, 0, 0, 0x00, 0x01}};
    static const struct message stopped = {16, {0x10, 0x07, 0, 0, 0x00, 0x01}}, state_2 = {17, {0x10, 0x05, 0, 0, 0x00, 0x01, [16] = 2}};
    static const struct message whole = {36, {0x10, 0x83, 0, 0, 0x00, 0x01, 0, 0, 0, 0, 0, 0, 0, 0, 0, 0, 0x05, 0x00, 0x03, 0x00,
        0x00, 0xf0, 0xff, 0xff, 0xff, 0xff, 0xff, 0xff}};
    uint8_t guess[32];
    uint8_t *r = record(0, 0x100);
    lend(1);
    replied("version 11h: 41h", ask(other), mismatch);
    replied("stop in state 0: 07h, unchanged", ask(stop), stopped);
    locked(r, 5, 3, 9, -4096);
    replied("the whole lock: 03h and the nonce, and the record is locked", ask(whole), message(0x03, 0x100, wanted_nonce, 32));
    replied("a lock in state 1: 04h", ask(whole), error(0x100, 0x04, 0));
    memcpy(guess, wanted_nonce, 32), guess[31] ^= 0x80;
    replied("start with another nonce: 102h, and nothing is spent", ask(message(0x86, 0x100, guess, 32)), error(0x100, 0x102, 0));
    started(r);
    replied("start: 06h, RUN, the nonce is cleared", ask(message(0x86, 0x100, wanted_nonce, 32)), message(0x06, 0x100, "", 0));
    replied("start in state 2: 04h", ask(message(0x86, 0x100, wanted_nonce, 32)), error(0x100, 0x04, 0));
    replied("state: 05h and 2", ask(message(0x85, 0x100, "", 0)), state_2);
    cleared(r, 0);
    replied("stop: 07h, lock fields and nonce are cleared", ask(stop), stopped);
}

static const uint8_t from_0[4] = {0, 0, 0xff, 0xff};

/* A report of 88 bytes, asked for whole, at its last byte, and past it. */
static void reported(uint32_t id, const uint8_t report[92]) {
    static const uint8_t from_87[4] = {87, 0, 0xff, 0xff}, from_88[4] = {88, 0, 0, 0};
    replied("its report, first page 0", ask(message(0x84, id, from_0, 4)), message(0x04, id, report, 92));
    replied("its last byte", ask(message(0x84, id, from_87, 4)), message(0x04, id, "\1\0\0\0\xb3", 5));
    replied("OFFSET at the total: 01h", ask(message(0x84, id, from_88, 4)), error(id, 0x01, 0));
}

/* Two interfaces, 0100h of no segment and 0100h of segment FFh; the second has a range, words and information. */
static void requests(void) {
    static const uint8_t capabilities[28] = {[4] = 0xfe, [20] = 5, [25] = 64, [26] = 1, [27] = 1};
    uint8_t report[4 + 88] = {88, 0, 0, 0};
    const uint32_t id = 0x1ff0100;
    record(0, 0x100);
    uint8_t *r = record(1, id);
    range(r, 16, 2, 0x0f, 9), informed(r);
    lend(2);
    replied("version: 01h", ask(message(0x81, id, "", 0)), message(0x01, id, "\x01\x10", 2));
    replied("capabilities: 02h", ask(message(0x82, id, "\xff\xff\xff\xff", 4)), message(0x02, id, capabilities, 28));
    replied("state 0", ask(message(0x85, id, "", 0)), message(0x05, id, "", 1));
    replied("a report in state 0: 04h", ask(message(0x84, id, from_0, 4)), error(id, 0x04, 0));
    replied("unlisted: 07h and the type", ask(message(0x88, id, "", 0)), error(id, 0x07, 0x88));
    replied("a length that is not exact: 01h", ask(message(0x81, id, "", 1)), error(id, 0x01, 0));
    replied("unknown: 101h", ask(message(0x81, 0x1fe0100, "", 0)), error(0x1fe0100, 0x101, 0));
    replied("flag bit 1: 01h", ask(lock(id, 2, 3, 0)), error(id, 0x01, 0));
    replied("offset 1: 01h", ask(lock(id, 5, 3, 1)), error(id, 0x01, 0));
    replied("first 16, offset -69632: 01h", ask(lock(id, 5, 3, -69632)), error(id, 0x01, 0));
    replied("stream 4 is not secure: 104h", ask(lock(id, 5, 4, -65536)), error(id, 0x104, 0));
    locked(r, 5, 3, 9, -65536);
    replied("a lock of the second, flags 15:5 set", ask(lock(id, 0xffe5, 3, -65536)), message(0x03, id, wanted_nonce, 32));
    /* INTERFACE_INFO with bit 0, MSI-X, LNR, TPH, one range with first page 0, L, information */
    uint8_t *b = report + 4;
    put(b, 0x1f, 2), put(b + 4, 0x8123, 2), put(b + 6, 0x9456, 2), put(b + 8, 0xa789abcd, 4), b[12] = 1;
    put(b + 24, 2, 4), put(b + 28, 0x0f, 2), put(b + 30, 9, 2), b[32] = 52, memcpy(b + 36, r + 204, 52);
    reported(id, report);
    started(r);
    replied("start", ask(message(0x86, id, wanted_nonce, 32)), message(0x06, id, "", 0));
    reported(id, report); /* 02, 1/12: the bytes are the same in both states */
    cleared(r, 3);
    check("class 4: ERROR", moves(tdisp_register_write(table, lent, id, 4), 0, 1));
    replied("a report in state 3: 04h", ask(message(0x84, id, from_0, 4)), error(id, 0x04, 0));
}

/* The ready mark is 0 or anything else; stream and session cross as bytes of any value. */
static void marks_and_numbers(void) {
    int right = 1;
    for (int mark = 0; mark < 256; mark++) {
        uint8_t *r = record(0, 0x100);
        lend(1);
        if (mark)
            locked(r, 0, 3, 9, 0);
        struct tdisp_answer a = ask_marked(lock(0x100, 0, 3, 0), (uint8_t)mark, 9);
        right &= replies(a, mark ? message(0x03, 0x100, wanted_nonce, 32) : error(0x100, 0x103, 0));
    }
    check("ready mark 0: 103h; 1 to 255: locked", right);
    right = 1;
    for (int number = 0; number < 256; number++) {
        uint8_t *r = record(0, 0x100);
        memset(wanted_streams, 0, 32);
        wanted_streams[number / 8] = (uint8_t)(1 << number % 8);
        lend(1);
        locked(r, 0, (uint8_t)number, (uint8_t)(255 - number), 0);
        struct tdisp_answer a = ask_marked(lock(0x100, 0, (uint8_t)number, 0), 1, (uint8_t)(255 - number));
        right &= replies(a, message(0x03, 0x100, wanted_nonce, 32));
        right &= moves(tdisp_stream_down(table, lent, (uint8_t)(number + 1)), 0, 0);
        right &= moves(tdisp_session_end(table, lent, (uint8_t)(254 - number)), 0, 0);
        cleared(r, 3);
        right &= moves(number % 2 ? tdisp_stream_down(table, lent, (uint8_t)number) : tdisp_session_end(table, lent, (uint8_t)(255 - number)), 0, 1);
    }
    memset(wanted_streams, 0, 32), wanted_streams[0] = 8;
    check("every stream and session number", right);
}

/* Buffers that are only read may overlap. */
static void overlapping(void) {
    const struct message m = lock(0x100, 0, 3, 0);
    uint8_t *r = record(0, 0x100);
    lend(1);
    locked(r, 0, 3, 9, 0);
    memcpy(r + 40, m.bytes, 32);
    struct tdisp_answer a = tdisp_respond(m.bytes, 36, reply, 256, table, lent, m.bytes, 32, 1, streams, 32, 9);
    replied("the nonce is the request's front", a, message(0x03, 0x100, m.bytes, 32));
    record(0, 0x100);
    lend(1);
    locked(r, 0, 3, 9, 0);
    memcpy(r + 40, streams, 32);
    a = tdisp_respond(m.bytes, 36, reply, 256, table, lent, streams, 32, 1, streams, 32, 9);
    replied("the nonce is the stream map", a, message(0x03, 0x100, streams, 32));
}

/* ---- Refusals ---- */

static void refused_requests(void) {
    const struct message m = lock(0x100, 5, 3, 0);
    record(0, 0x100);
    lend(1);
    check("4", refuses(tdisp_respond(m.bytes, 36, reply, 255, table, 256, nonce, 32, 1, streams, 32, 9), 4));
    check("4, an empty buffer", refuses(tdisp_respond(m.bytes, 36, nowhere, 0, table, 256, nonce, 32, 1, streams, 32, 9), 4));
    check("4 before 5 and 6", refuses(tdisp_respond(m.bytes, 15, reply, 255, table, 256, nonce, 31, 1, streams, 31, 9), 4));
    check("5", refuses(tdisp_respond(m.bytes, 15, reply, 256, table, 256, nonce, 32, 1, streams, 32, 9), 5));
    check("5, an empty request", refuses(tdisp_respond(nowhere, 0, reply, 256, table, 256, nonce, 32, 1, streams, 32, 9), 5));
    check("5 before 6", refuses(tdisp_respond(m.bytes, 15, reply, 256, table, 256, nonce, 31, 1, streams, 31, 9), 5));
    check("6, the nonce", refuses(tdisp_respond(m.bytes, 36, reply, 256, table, 256, nonce, 31, 1, streams, 32, 9), 6));
    check("6, no nonce", refuses(tdisp_respond(m.bytes, 36, reply, 256, table, 256, nowhere, 0, 1, streams, 32, 9), 6));
    check("6, the map", refuses(tdisp_respond(m.bytes, 36, reply, 256, table, 256, nonce, 32, 1, streams, 31, 9), 6));
    check("6, no map", refuses(tdisp_respond(m.bytes, 36, reply, 256, table, 256, nonce, 32, 1, nowhere, 0, 9), 6));
    check("1 before all", refuses(tdisp_respond(nowhere, 0, nowhere, 0, nowhere, 0, nowhere, 0, 1, nowhere, 0, 9), 1));
}

/* All six calls on a table as it is lent: refused with the number, and nothing written. */
static void all_refused(const char *name, uint32_t number) {
    int right = refuses(ask(lock(0x100, 5, 3, 0)), number) && moves(tdisp_register_write(table, lent, 0x100, 4), number, 0)
        && moves(tdisp_register_write(table, lent, 0x999, 10), number, 0) && moves(tdisp_stream_down(table, lent, 3), number, 0)
        && moves(tdisp_session_end(table, lent, 9), number, 0) && moves(tdisp_multicast(table, lent), number, 0)
        && says(tdisp_firmware(table, lent), number, 0);
    check(name, right);
}

static void refused_tables(void) {
    static const size_t lengths[] = {1, 255, 257, 16383, 16385, 65 * 256};
    for (int place = 0; place < 65; place++)
        started(record(place, 0x100 + (uint32_t)place));
    lend(65);
    for (size_t i = 0; i < sizeof lengths / sizeof lengths[0]; i++) {
        lent = lengths[i];
        all_refused("1", 1);
    }
    lent = 0;
    check("1, no table", moves(tdisp_multicast(nowhere, 0), 1, 0) && moves(tdisp_register_write(nowhere, 0, 0x100, 4), 1, 0)
        && moves(tdisp_stream_down(nowhere, 0, 3), 1, 0) && moves(tdisp_session_end(nowhere, 0, 9), 1, 0) && says(tdisp_firmware(nowhere, 0), 1, 0));
    lend(64);
    check("64 records are served: yes", says(tdisp_firmware(table, lent), 0, 1));
    wanted_table[63 * 256 + 4] = 4;
    lend(64);
    all_refused("2, in the last record", 2);
    put(wanted_table + 63 * 256, 0x100, 4);
    lend(64);
    all_refused("2 before 3", 2);
    wanted_table[63 * 256 + 4] = 2;
    lend(64);
    all_refused("3, the first and the last record", 3);
}

/* ---- Changes ---- */

static uint8_t *first, *second, *third;

/* In RUN on stream 3 over session 9; locked under NO_FW_UPDATE and LOCK_MSIX on stream 200 over session 3; unlocked. */
static void three(void) {
    first = record(0, 0x100), second = record(1, 0x1ff0100), third = record(2, 0x102);
    range(first, 16, 1, 0, 0), informed(first), locked(first, 0, 3, 9, -65536), started(first);
    informed(second), locked(second, 5, 200, 3, INT64_MIN);
    range(third, 1, 1, 0, 0), informed(third);
    lend(3);
}

static void changes(void) {
    three();
    check("firmware: no", says(tdisp_firmware(table, lent), 0, 0));
    cleared(second, 3);
    check("stream 200 down", moves(tdisp_stream_down(table, lent, 200), 0, 1));
    check("stream 0 down: no state 0 or 3 moves", moves(tdisp_stream_down(table, lent, 0), 0, 0));
    check("firmware: yes", says(tdisp_firmware(table, lent), 0, 1));
    three();
    cleared(first, 3);
    check("stream 3 down, not session 3", moves(tdisp_stream_down(table, lent, 3), 0, 1));
    three();
    cleared(second, 3);
    check("session 3 ends, not stream 3", moves(tdisp_session_end(table, lent, 3), 0, 1));
    three();
    cleared(first, 3), cleared(second, 3);
    check("multicast", moves(tdisp_multicast(table, lent), 0, 2));
    check("multicast again", moves(tdisp_multicast(table, lent), 0, 0));
    three();
    locked(third, 0, 3, 9, -4096);
    lend(3);
    cleared(first, 3), cleared(third, 3);
    check("stream 3 down: the last interface, too", moves(tdisp_stream_down(table, lent, 3), 0, 2));
    three();
    locked(third, 0, 3, 9, -4096);
    lend(3);
    cleared(first, 3), cleared(third, 3);
    check("session 9 ends: the last interface, too", moves(tdisp_session_end(table, lent, 9), 0, 2));
}

static void writes(void) {
    three();
    check("class 15 is allowed", moves(tdisp_register_write(table, lent, 0x100, 15), 0, 0));
    check("class 2 without LOCK_MSIX", moves(tdisp_register_write(table, lent, 0x100, 2), 0, 0));
    check("7", moves(tdisp_register_write(table, lent, 0x101, 4), 7, 0));
    check("7, another segment", moves(tdisp_register_write(table, lent, 0x1fe0100, 4), 7, 0));
    check("7, class 10", moves(tdisp_register_write(table, lent, 0x101, 10), 7, 0));
    cleared(second, 3);
    check("class 2 under LOCK_MSIX, reserved bits ignored", moves(tdisp_register_write(table, lent, 0xffff0100, 2), 0, 1));
    cleared(first, 3);
    check("class 255 is ERROR, an unmarked segment ignored", moves(tdisp_register_write(table, lent, 0xff0100, 255), 0, 1));
    check("and moves nothing twice", moves(tdisp_register_write(table, lent, 0x100, 255), 0, 0));
    three();
    cleared(first, 3), cleared(second, 3);
    check("class 10 naming the third moves the others", moves(tdisp_register_write(table, lent, 0x102, 10), 0, 2));
}

/* ---- Reports ---- */

/* Fields that are told from each other, n ranges and l bytes; and their report by the paper, in `bytes`. */
static struct tdisp_report fields(int n, int l, uint8_t bytes[200]) {
    struct tdisp_report f = {.info = 0x1f, .msix = 0x8302, .lnr = 0x8504, .tph = 0x89080706, .n = (uint32_t)n, .l = (uint32_t)l};
    put(bytes, 0x1f, 4), put(bytes + 4, 0x8302, 2), put(bytes + 6, 0x8504, 2), put(bytes + 8, 0x89080706, 4), put(bytes + 12, f.n, 4);
    for (int k = 0; k < n; k++) {
        f.ranges[k] = (struct tdisp_range){0x7161514131200 + (uint64_t)k, 0xf4232200 + (uint32_t)k, (uint16_t)(15 - k), (uint16_t)(k < 4 ? k : 0x8000 + k)};
        uint8_t *at = bytes + 16 + 16 * k;
        put(at, 0x7161514131200 + (uint64_t)k, 8), put(at + 8, 0xf4232200 + (uint32_t)k, 4), put(at + 12, (uint64_t)(15 - k), 2);
        put(at + 14, (uint64_t)(k < 4 ? k : 0x8000 + k), 2);
    }
    put(bytes + 16 + 16 * n, (uint64_t)l, 4);
    for (int i = 0; i < l; i++)
        f.information[i] = bytes[20 + 16 * n + i] = (uint8_t)(0xf0 - i);
    return f;
}

static void reports_there_and_back(void) {
    for (int n = 0; n <= 8; n++) {
        int l = n == 8 ? 52 : 5 * n, length = 20 + 16 * n + l;
        uint8_t bytes[200] = {0}, out[210], wanted[210];
        struct tdisp_report f = fields(n, l, bytes), r = tdisp_read_report(bytes, (size_t)length);
        check("read", same_fields(&r, &f));
        memset(out, 0xee, sizeof out), memset(wanted, 0xee, sizeof wanted), memcpy(wanted, bytes, (size_t)length);
        f.number = 77; /* not read, and so are ranges past N and information past L */
        for (int k = n; k < 8; k++)
            f.ranges[k] = (struct tdisp_range){UINT64_MAX, 0, 0xffff, 0};
        memset(f.information + l, 0xff, 52 - (size_t)l);
        struct tdisp_answer a = tdisp_write_report(f, out, 200);
        check("written", a.number == 0 && a.length == (uint32_t)length && !memcmp(out, wanted, sizeof out));
    }
}

static void not_read(const uint8_t *bytes, size_t length, uint32_t number) {
    const struct tdisp_report zeros = {.number = number};
    struct tdisp_report r = tdisp_read_report(bytes, length);
    check("a report that is not read: its number and zeros", same_fields(&r, &zeros));
}

static void not_written(struct tdisp_report f, size_t length, uint32_t number) {
    uint8_t out[210], wanted[210];
    memset(out, 0xee, sizeof out), memset(wanted, 0xee, sizeof wanted);
    struct tdisp_answer a = tdisp_write_report(f, length ? out : nowhere, length);
    check("a report that is not written", a.number == number && a.length == 0 && !memcmp(out, wanted, sizeof out));
}

static void reports_refused(void) {
    uint8_t bytes[201] = {0};
    struct tdisp_report f = fields(2, 3, bytes); /* 55 bytes */
    not_read(nowhere, 0, 20), not_read(bytes, 19, 20), not_read(bytes, 51, 20), not_read(bytes, 54, 20), not_read(bytes, 56, 22);
    bytes[12] = 9, not_read(bytes, 55, 21), bytes[12] = 2;
    bytes[48] = 53, not_read(bytes, 55, 21), bytes[48] = 3;
    bytes[2] = 1, not_read(bytes, 55, 23), bytes[2] = 0;
    bytes[23] = 0x10, not_read(bytes, 55, 24), bytes[23] = 0;
    bytes[30] = 2, not_read(bytes, 55, 25), bytes[30] = 0;
    struct tdisp_report r = tdisp_read_report(bytes, 55);
    check("read again", same_fields(&r, &f));
    not_written(f, 0, 26), not_written(f, 199, 26);
    f.n = 9, not_written(f, 200, 21), f.n = 2;
    f.l = 53, not_written(f, 200, 21), f.l = 3;
    f.info = 0x20, not_written(f, 200, 23), f.info = 0x1f;
    f.ranges[1].attributes = 0x10, not_written(f, 200, 23), f.ranges[1].attributes = 14;
    f.ranges[1].pages = 0, not_written(f, 200, 24), f.ranges[1].pages = 1;
    f.ranges[0].id = 2, not_written(f, 200, 25);
}

int main(void) {
    for (int i = 0; i < 32; i++)
        wanted_nonce[i] = (uint8_t)i;
    wanted_streams[0] = 8;
    worked_lines();
    requests();
    marks_and_numbers();
    overlapping();
    refused_requests();
    refused_tables();
    changes();
    writes();
    reports_there_and_back();
    reports_refused();
    printf("c: %d passed, %d failed\n", passed, failed);
    return failed != 0;
}
