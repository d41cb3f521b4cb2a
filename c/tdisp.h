/* TDISP responder, proved: the C interface of libtdisp.a.
 *
 * Byte order: every field wider than a byte, in messages, reports and tables, is low byte first. The numbers of the structs below are
 * plain C numbers.
 *
 * Callers check nothing first: any bytes of any length may be given. What they owe: each pointer is valid for its length, so that as many
 * bytes can be read there, and written where it is not const; it is not null, even if the length is 0, although it is not followed then. A
 * buffer that is not const overlaps no other buffer of the call; const ones may overlap. Nobody else writes a buffer while the call runs.
 * A call keeps nothing: there is no state but the table. Calls on different tables may run at the same time.
 *
 * Numbers: 0 served. 1 table length is not 256 to 16,384 in steps of 256. 2 a record breaks its rules. 3 two records have equal
 * FUNCTION_ID. 4 reply buffer under 256 bytes. 5 request under 16 bytes. 6 stream map or nonce bytes not 32 long. 7 a register write's
 * interface is no record's. The lowest that applies is given. Beside any number but 0 the length, count or answer is 0 and no buffer
 * is written.
 */
#ifndef TDISP_H
#define TDISP_H

#include <stddef.h>
#include <stdint.h>

#ifdef __cplusplus
extern "C" {
#endif

struct tdisp_answer { uint32_t number; uint32_t length; };
struct tdisp_moved { uint32_t number; uint32_t count; };
struct tdisp_yes { uint32_t number; uint32_t yes; };

/* Answers a request (numbers 1 to 6). Served: the reply stands at the front of `reply`, `length` is its length, at most 148 bytes, and the
 * rest of the buffer stays; the record that the request names is changed in `table` as the request says. A TDISP_ERROR reply is served.
 * LOCK_INTERFACE is legal in CONFIG_UNLOCKED, GET_DEVICE_INTERFACE_REPORT in CONFIG_LOCKED and RUN, START_INTERFACE in CONFIG_LOCKED, the other
 * requests in any state; elsewhere the reply is TDISP_ERROR 04h. A report has the same bytes in CONFIG_LOCKED and RUN.
 * `nonce`: 32 bytes for a lock; `ready`: 0, or anything else if they are ready. `streams`: bit k of byte j says that stream 8j+k is secure.
 * `session`: the number of the session that the request came over. */
struct tdisp_answer tdisp_respond(const uint8_t *request, size_t request_len, uint8_t *reply, size_t reply_len,
    uint8_t *table, size_t table_len, const uint8_t *nonce, size_t nonce_len, uint8_t ready,
    const uint8_t *streams, size_t streams_len, uint8_t session);

/* A register of this class was written, of the interface with this FUNCTION_ID (numbers 1, 2, 3 and 7; class 10 is device-wide).
 * Writes `table` alone: the records that move go to ERROR, and `count` is their number. */
struct tdisp_moved tdisp_register_write(uint8_t *table, size_t table_len, uint32_t function_id, uint8_t class_);

/* A stream went down: the interfaces whose default stream it is (numbers 1 to 3). */
struct tdisp_moved tdisp_stream_down(uint8_t *table, size_t table_len, uint8_t stream);

/* A session ended: the interfaces that were locked over it (numbers 1 to 3). */
struct tdisp_moved tdisp_session_end(uint8_t *table, size_t table_len, uint8_t session);

/* A multicast register was written: all interfaces (numbers 1 to 3). */
struct tdisp_moved tdisp_multicast(uint8_t *table, size_t table_len);

/* May the firmware be updated now? `yes` is 1 exactly if no interface in CONFIG_LOCKED or RUN holds NO_FW_UPDATE (numbers 1 to 3).
 * Writes nothing. */
struct tdisp_yes tdisp_firmware(const uint8_t *table, size_t table_len);

/* A report and its reader: tdisp_host.h has them too, and both headers may be included. */
#ifndef TDISP_REPORT
#define TDISP_REPORT

struct tdisp_range { uint64_t first; uint32_t pages; uint16_t attributes; uint16_t id; };
struct tdisp_report { uint32_t number; uint16_t info, msix, lnr; uint32_t tph, n; struct tdisp_range ranges[8];
    uint32_t l; uint8_t information[52]; };

/* Reads a report. `number`: 0; 20 too short for what it says; 21 N over 8 or L over 52; 22 longer; 23 a reserved bit set; 24 pages 0, or
 * first + pages above 2^52; 25 IDs 0 to 7 that fall. Fields past N and L are zero; beside a refusal all are. Writes nothing. */
struct tdisp_report tdisp_read_report(const uint8_t *report, size_t report_len);

#endif

/* Writes a report at the front of `output` and returns its length; the rest of the output stays. `number`: 0; 26 output under 200 bytes;
 * 21, 23, 24, 25 as above. A refusal writes nothing. `fields.number`, ranges past N and information past L are not read. */
struct tdisp_answer tdisp_write_report(struct tdisp_report fields, uint8_t *output, size_t output_len);

#ifdef __cplusplus
}
#endif

#endif
