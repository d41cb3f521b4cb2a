/* What both tests use: the count of checks, and records and messages by the paper's tables. */
#include <stdio.h>
#include <string.h>

/* the layout that both headers have */
_Static_assert(sizeof(struct tdisp_range) == 16 && offsetof(struct tdisp_range, pages) == 8
    && offsetof(struct tdisp_range, attributes) == 12 && offsetof(struct tdisp_range, id) == 14, "tdisp_range");
_Static_assert(sizeof(struct tdisp_report) == 208 && offsetof(struct tdisp_report, info) == 4 && offsetof(struct tdisp_report, msix) == 6
    && offsetof(struct tdisp_report, lnr) == 8 && offsetof(struct tdisp_report, tph) == 12 && offsetof(struct tdisp_report, n) == 16
    && offsetof(struct tdisp_report, ranges) == 24 && offsetof(struct tdisp_report, l) == 152
    && offsetof(struct tdisp_report, information) == 156, "tdisp_report");

static int passed, failed;

static inline void check(const char *name, int right) {
    if (right)
        passed++;
    else {
        failed++;
        printf("WRONG: %s\n", name);
    }
}

static inline void put(uint8_t *at, uint64_t number, int bytes) {
    for (int i = 0; i < bytes; i++)
        at[i] = (uint8_t)(number >> (8 * i));
}

/* One more range, and device information of 52 bytes that all differ. */
static inline void range(uint8_t *r, uint64_t first, uint32_t pages, uint16_t attributes, uint16_t id) {
    uint8_t *at = r + 72 + 16 * r[10]++;
    put(at, first, 8), put(at + 8, pages, 4), put(at + 12, attributes, 2), put(at + 14, id, 2);
}

static inline void informed(uint8_t *r) {
    put(r + 12, 0x1e, 2), put(r + 14, 0x8123, 2), put(r + 16, 0x9456, 2), put(r + 20, 0xa789abcd, 4);
    r[200] = 52;
    for (int i = 0; i < 52; i++)
        r[204 + i] = (uint8_t)(0x80 + i);
}

/* A request or a reply: header, FUNCTION_ID, eight zeros, payload. */
struct message { size_t length; uint8_t bytes[256]; };

static inline struct message message(uint8_t type, uint32_t function_id, const void *payload, size_t length) {
    struct message m = {16 + length, {0x10, type}};
    put(m.bytes + 4, function_id, 4);
    memcpy(m.bytes + 16, payload, length);
    return m;
}

static inline int same_fields(const struct tdisp_report *a, const struct tdisp_report *b) {
    for (int k = 0; k < 8; k++)
        if (a->ranges[k].first != b->ranges[k].first || a->ranges[k].pages != b->ranges[k].pages
            || a->ranges[k].attributes != b->ranges[k].attributes || a->ranges[k].id != b->ranges[k].id)
            return 0;
    return a->number == b->number && a->info == b->info && a->msix == b->msix && a->lnr == b->lnr && a->tph == b->tph && a->n == b->n
        && a->l == b->l && !memcmp(a->information, b->information, 52);
}

/* A pointer that must not be followed. */
static uint8_t *const nowhere = (uint8_t *)16;
