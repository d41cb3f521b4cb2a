/* Reports for hosts, proved: the C interface of libtdisp_host.a. One program may use tdisp.h and libtdisp.a too, in any order.
 *
 * Byte order: every field wider than a byte, in replies and reports, is low byte first. The numbers of the structs below are plain C numbers.
 *
 * Callers check nothing first: any bytes of any length may be given. What they owe: each pointer is valid for its length, so that as many
 * bytes can be read there; it is not null, even if the length is 0, although it is not followed then. Nobody writes a buffer while the call
 * runs. No call writes a buffer or keeps anything: what there is to remember is in the struct that it returns.
 */
#ifndef TDISP_HOST_H
#define TDISP_HOST_H

#include <stddef.h>
#include <stdint.h>

#ifdef __cplusplus
extern "C" {
#endif

/* A report and its reader: tdisp.h has them too, and both headers may be included. */
#ifndef TDISP_REPORT
#define TDISP_REPORT

struct tdisp_range { uint64_t first; uint32_t pages; uint16_t attributes; uint16_t id; };
struct tdisp_report { uint32_t number; uint16_t info, msix, lnr; uint32_t tph, n; struct tdisp_range ranges[8];
    uint32_t l; uint8_t information[52]; };

/* Reads a report. `number`: 0; 20 too short for what it says; 21 N over 8 or L over 52; 22 longer; 23 a reserved bit set; 24 pages 0, or
 * first + pages above 2^52; 25 IDs 0 to 7 that fall. Fields past N and L are zero; beside a refusal all are. Writes nothing. */
struct tdisp_report tdisp_read_report(const uint8_t *report, size_t report_len);

#endif

/* A report that comes in portions, collected: the first `held` of `bytes` are there so far. `total` is the total that the first reply taken said,
 * and counts once `begun` is any number but 0. Every value is legal, also one that tdisp_collector_new did not make. From a new one on,
 * places past what is held stay zero. */
struct tdisp_collector { uint32_t function_id; uint32_t held; uint32_t total; uint32_t begun; uint8_t bytes[200]; };
struct tdisp_taken { uint32_t number; struct tdisp_collector collector; };
struct tdisp_whole { uint32_t length; uint8_t bytes[200]; };

/* A collector that has nothing yet, for the interface with this FUNCTION_ID. */
struct tdisp_collector tdisp_collector_new(uint32_t function_id);

/* The OFFSET to ask for next. LENGTH is the host's to choose; with 65,535 our responder sends any report in at most two replies. Asked like
 * this, while one lock stands from the first reply to the last, the finished collection is the whole report. */
uint32_t tdisp_collector_next(struct tdisp_collector c);

/* Takes a reply. `number`: 0 taken; else the first that applies of: 30 not a report reply (under 20 bytes, other version or type); 31 other
 * interface; 32 length not as the portion says; 33 total different from before; 34 total over 200. The total is the bytes held plus portion plus
 * remainder. Taken: `collector` has the portion behind what was held; a portion of 0 moves nothing, and when to give up is the host's to say.
 * Refused: `collector` is the one that was given, byte for byte. A reply carries no OFFSET: a first one that was asked for elsewhere than at 0 is
 * taken if its total fits; later ones that were asked for elsewhere under the same lock are refused, by their total. */
struct tdisp_taken tdisp_collector_take(struct tdisp_collector c, const uint8_t *reply, size_t reply_len);

/* 1 if all of the report is there, else 0. */
uint32_t tdisp_collector_finished(struct tdisp_collector c);

/* What is held: the first `length` of `bytes`, at most 200. Of a finished collector it is what tdisp_read_report takes. */
struct tdisp_whole tdisp_collector_bytes(struct tdisp_collector c);

#ifdef __cplusplus
}
#endif

#endif
