//! 01's worked lines, and one case for every row of its tables, against both responders. Expected values are the paper's,
//! written out by hand.

use compare::calls::{ORDINARY, PROVED, Side, hex};
use tdisp::{Answer, FunctionId, Moved, Range, Report, Session, Stream, Yes};

/// Runs the check on the proved and on the ordinary responder.
fn both(check: impl Fn(&Side)) {
    for side in [&PROVED, &ORDINARY] {
        println!("{}:", side.name);
        check(side);
    }
}

// ---- Tables, requests and calls by hand -----------------------------------------------------------------------------

/// Requester 0100h: "the bytes 00 01". No ranges, no information, CONFIG_UNLOCKED.
fn record_0100() -> Vec<u8> {
    let mut record = vec![0; 256];
    record[1] = 0x01;
    record
}

/// The record with one more range.
fn with_range(mut record: Vec<u8>, first: u64, pages: u32, attributes: u16, id: u16) -> Vec<u8> {
    let at = 72 + 16 * usize::from(record[10]);
    record[at..at + 8].copy_from_slice(&first.to_le_bytes());
    record[at + 8..at + 12].copy_from_slice(&pages.to_le_bytes());
    record[at + 12..at + 14].copy_from_slice(&attributes.to_le_bytes());
    record[at + 14..at + 16].copy_from_slice(&id.to_le_bytes());
    record[10] += 1;
    record
}

/// The record in CONFIG_LOCKED: those flags, stream 3, session 7, offset 0, nonce 00 to 1F held.
fn locked(mut record: Vec<u8>, flags: u8) -> Vec<u8> {
    record[4..10].copy_from_slice(&[1, 1, flags, 0, 3, 7]);
    record[40..72].copy_from_slice(&nonce());
    record
}

/// The record in RUN: as locked, with the nonce spent.
fn running(record: Vec<u8>, flags: u8) -> Vec<u8> {
    let mut record = locked(record, flags);
    record[4..6].copy_from_slice(&[2, 0]);
    record[40..72].fill(0);
    record
}

fn in_error(mut record: Vec<u8>) -> Vec<u8> {
    record[4] = 3;
    record
}

fn named(mut record: Vec<u8>, function_id: u32) -> Vec<u8> {
    record[..4].copy_from_slice(&function_id.to_le_bytes());
    record
}

/// Bytes 00 to 1F.
fn nonce() -> [u8; 32] {
    std::array::from_fn(|at| at as u8)
}

/// A request for 0100h.
fn request(kind: u8, payload: &[u8]) -> Vec<u8> {
    [&[0x10, kind, 0, 0, 0x00, 0x01][..], &[0; 10], payload].concat()
}

/// 01's whole lock: "10 83 00 00 00 01, ten zeros, 05 00 03 00, 00 F0 FF FF FF FF FF FF, eight zeros", with these flags and
/// offset.
fn lock(flags: u16, offset: i64) -> Vec<u8> {
    request(0x83, &[&flags.to_le_bytes()[..], &[3, 0], &offset.to_le_bytes(), &[0; 8]].concat())
}

/// A reply to a request for 0100h.
fn reply(kind: u8, payload: &[u8]) -> Vec<u8> {
    request(kind, payload)
}

fn error(code: u32) -> Vec<u8> {
    reply(0x7F, &[code.to_le_bytes(), [0; 4]].concat())
}

/// Stream 3 secure and no other.
fn stream_3() -> [u8; 32] {
    let mut map = [0; 32];
    map[0] = 0b0000_1000;
    map
}

/// Serves the request with stream 3 secure and bytes 00 to 1F ready, in session 7; gives the reply.
fn serve(side: &Side, request: &[u8], table: &mut [u8]) -> Vec<u8> {
    let mut buffer = [0xEE; 300];
    let answer = (side.respond)(request, &mut buffer, table, &nonce(), true, &stream_3(), Session(7));
    assert_eq!(answer.number, 0, "served");
    let (reply, rest) = buffer.split_at(answer.length as usize);
    assert!(rest.iter().all(|byte| *byte == 0xEE), "the rest of the buffer unchanged");
    reply.to_vec()
}

/// The reply, and the table as it must be afterwards.
fn expect(side: &Side, table: &[u8], request: &[u8], reply: &[u8], after: &[u8]) {
    let mut lent = table.to_vec();
    assert_eq!(hex(&serve(side, request, &mut lent)), hex(reply));
    assert_eq!(hex(&lent), hex(after));
}

/// "A TDISP_ERROR reply is served: number 0, table unchanged."
fn expect_error(side: &Side, table: &[u8], request: &[u8], code: u32) {
    expect(side, table, request, &error(code), table);
}

// ---- 01: Pages, nonces and bytes worked through ---------------------------------------------------------------------

#[test]
fn first_16_offset_minus_65536_reports_0() {
    both(|side| {
        let mut table = with_range(record_0100(), 16, 1, 0, 0);
        assert_eq!(serve(side, &lock(0, -65536), &mut table)[1], 0x03);
        // Report: 12 bytes of zeros, N = 1, the range with first page 0, L = 0. Portion 36, remainder 0.
        let report = [&[0; 12][..], &[1, 0, 0, 0], &[0, 0, 0, 0, 0, 0, 0, 0, 1, 0, 0, 0, 0, 0, 0, 0], &[0; 4]].concat();
        let expected = reply(0x04, &[&[36, 0, 0, 0], &report[..]].concat());
        assert_eq!(hex(&serve(side, &request(0x84, &[0, 0, 0xFF, 0xFF]), &mut table)), hex(&expected));
    });
}

#[test]
fn first_16_offset_minus_69632_is_01h() {
    both(|side| expect_error(side, &with_range(record_0100(), 16, 1, 0, 0), &lock(0, -69632), 0x01));
}

#[test]
fn offset_1_is_01h() {
    both(|side| {
        expect_error(side, &record_0100(), &lock(0, 1), 0x01);
        expect_error(side, &with_range(record_0100(), 16, 1, 0, 0), &lock(0, 1), 0x01);
    });
}

#[test]
fn the_last_page_takes_offset_0_and_not_4096() {
    both(|side| {
        let table = with_range(record_0100(), (1 << 52) - 1, 1, 0, 0);
        assert_eq!(serve(side, &lock(0, 0), &mut table.clone())[1], 0x03);
        expect_error(side, &table, &lock(0, 4096), 0x01);
    });
}

#[test]
fn version_11h_is_a_mismatch() {
    both(|side| {
        let mut wrong = request(0x81, &[]);
        wrong[0] = 0x11;
        let expected = [&[0x10, 0x7F, 0x00, 0x00, 0x00, 0x01][..], &[0; 10], &[0x41, 0x00, 0x00, 0x00, 0x00, 0x00, 0x00, 0x00]];
        expect(side, &record_0100(), &wrong, &expected.concat(), &record_0100());
    });
}

#[test]
fn stop_in_state_0_changes_nothing() {
    both(|side| expect(side, &record_0100(), &request(0x87, &[]), &reply(0x07, &[]), &record_0100()));
}

#[test]
fn start_in_state_2_is_04h() {
    both(|side| {
        expect_error(side, &running(record_0100(), 5), &request(0x86, &nonce()), 0x04);
        expect_error(side, &running(record_0100(), 5), &request(0x86, &[0; 32]), 0x04);
    });
}

#[test]
fn empty_report_is_20() {
    both(|side| assert_eq!((side.read_report)(&[]), Report { number: 20, ..Report::ZERO }));
}

#[test]
fn twenty_zero_bytes_are_a_report() {
    both(|side| assert_eq!((side.read_report)(&[0; 20]), Report::ZERO));
}

#[test]
fn total_200_offset_199() {
    both(|side| {
        let mut table = locked(record_0100(), 0);
        for page in 0..8 {
            table = with_range(table, 16 * page, 16, 0, 9);
        }
        table[200] = 52;
        table[204..255].fill(0x11);
        table[255] = 0x77;
        // OFFSET 199 = C7h, LENGTH 65,535: portion 1, remainder 0, the last byte of the information.
        let last = reply(0x04, &[1, 0, 0, 0, 0x77]);
        expect(side, &table, &request(0x84, &[0xC7, 0, 0xFF, 0xFF]), &last, &table);
        expect_error(side, &table, &request(0x84, &[0xC8, 0, 0xFF, 0xFF]), 0x01);
        // LENGTH 0 gives portion 0, and is 01h at the total as well.
        expect(side, &table, &request(0x84, &[0, 0, 0, 0]), &reply(0x04, &[0, 0, 200, 0]), &table);
        expect_error(side, &table, &request(0x84, &[0xC8, 0, 0, 0]), 0x01);
        // "the longest reply is 148 bytes": portion 128, remainder 72.
        let longest = serve(side, &request(0x84, &[0, 0, 0xFF, 0xFF]), &mut table.clone());
        assert_eq!((longest.len(), &longest[16..20]), (148, &[128, 0, 72, 0][..]));
    });
}

#[test]
fn whole_lock_for_0100h() {
    both(|side| {
        let request = [
            &[0x10, 0x83, 0x00, 0x00, 0x00, 0x01][..],
            &[0; 10],
            &[0x05, 0x00, 0x03, 0x00],
            &[0x00, 0xF0, 0xFF, 0xFF, 0xFF, 0xFF, 0xFF, 0xFF],
            &[0; 8],
        ]
        .concat();
        let expected = [&[0x10, 0x03, 0x00, 0x00, 0x00, 0x01][..], &[0; 10], &nonce()].concat();
        let mut after = locked(record_0100(), 5);
        after[24..32].copy_from_slice(&[0x00, 0xF0, 0xFF, 0xFF, 0xFF, 0xFF, 0xFF, 0xFF]);
        expect(side, &record_0100(), &request, &expected, &after);
    });
}

// ---- Requests, row by row -------------------------------------------------------------------------------------------

#[test]
fn version_and_state_replies() {
    both(|side| {
        let tables = [record_0100(), locked(record_0100(), 5), running(record_0100(), 5), in_error(record_0100())];
        for (state, table) in tables.iter().enumerate() {
            expect(side, table, &request(0x81, &[]), &reply(0x01, &[0x01, 0x10]), table);
            expect(side, table, &request(0x85, &[]), &reply(0x05, &[state as u8]), table);
        }
    });
}

#[test]
fn capabilities_reply() {
    both(|side| {
        let payload = [
            &[0, 0, 0, 0, 0xFE][..], // DSM_CAPS, the mask's first byte
            &[0; 15],
            &[0x05, 0x00, 0, 0, 0, 64, 1, 1],
        ]
        .concat();
        assert_eq!(payload.len(), 28);
        // TSM_CAPS is reserved: ignored.
        expect(side, &record_0100(), &request(0x82, &[0xFF; 4]), &reply(0x02, &payload), &record_0100());
    });
}

#[test]
fn unlisted_types_are_07h_with_their_code() {
    both(|side| {
        for kind in (0x00..=0x80).chain(0x88..=0xFF) {
            let expected = reply(0x7F, &[0x07, 0, 0, 0, kind, 0, 0, 0]);
            expect(side, &record_0100(), &request(kind, &[]), &expected, &record_0100());
        }
    });
}

#[test]
fn lengths_are_exact() {
    both(|side| {
        let lengths = [(0x81, 16), (0x82, 20), (0x83, 36), (0x84, 20), (0x85, 16), (0x86, 48), (0x87, 16)];
        for (kind, right) in lengths {
            for length in (16..=60).filter(|length| *length != right) {
                expect_error(side, &record_0100(), &request(kind, &vec![0; length - 16]), 0x01);
            }
        }
    });
}

#[test]
fn legal_states() {
    both(|side| {
        let tables = [record_0100(), locked(record_0100(), 5), running(record_0100(), 5), in_error(record_0100())];
        for (state, table) in tables.iter().enumerate() {
            for (kind, payload, legal) in [(0x83, 20, &[0][..]), (0x84, 4, &[1, 2]), (0x86, 32, &[1])] {
                if !legal.contains(&state) {
                    expect_error(side, table, &request(kind, &vec![0xFF; payload]), 0x04);
                }
            }
        }
    });
}

/// 02, 1/12: "The bytes are the same in both states": every portion of a report of 55 bytes, before a start and after it.
#[test]
fn a_start_leaves_every_portion() {
    both(|side| {
        for flags in [0, 1, 4, 5] {
            let before = reporting_record(flags);
            let mut after = before.clone();
            assert_eq!(serve(side, &request(0x86, &nonce()), &mut after), reply(0x06, &[]));
            assert_eq!(after[4], 2);
            for (offset, length) in (0..=55).flat_map(|offset| [0, 1, 20, 55, 255].map(|length| (offset, length))) {
                let asked = request(0x84, &[offset, 0, length, 0]);
                let shown = serve(side, &asked, &mut before.clone());
                assert_eq!(shown[1], if offset < 55 { 0x04 } else { 0x7F });
                expect(side, &after, &asked, &shown, &after);
            }
        }
    });
}

/// The sequence of 000's bind: lock, start, then the report in portions; asked for before the start too. The host of 000 must
/// set flag bit 4, and that lock is 01h: here the lock is without it.
#[test]
fn the_bind_of_000() {
    both(|side| {
        let ask = |offset: u8, length: u8| request(0x84, &[offset, 0, length, 0]);
        let mut table = with_range(record_0100(), 16, 2, 0x0F, 9);
        expect_error(side, &table, &ask(0, 16), 0x04);
        expect_error(side, &table, &lock(0x15, 0), 0x01);
        assert_eq!(serve(side, &lock(5, -4096), &mut table), reply(0x03, &nonce()));
        // INTERFACE_INFO bit 0; N = 1; first page 15, two pages, attributes 0Fh, ID 9; L = 0.
        let report =
            [&[1, 0][..], &[0; 10], &[1, 0, 0, 0], &[15, 0, 0, 0, 0, 0, 0, 0, 2, 0, 0, 0, 0x0F, 0, 9, 0], &[0; 4]].concat();
        let first = reply(0x04, &[&[16, 0, 20, 0], &report[..16]].concat());
        let rest = reply(0x04, &[&[20, 0, 0, 0], &report[16..]].concat());
        let portions = |table: &[u8]| {
            expect(side, table, &ask(0, 16), &first, table);
            expect(side, table, &ask(16, 255), &rest, table);
            expect_error(side, table, &ask(36, 1), 0x01);
        };
        portions(&table);
        assert_eq!(serve(side, &request(0x86, &nonce()), &mut table), reply(0x06, &[]));
        portions(&table);
        assert_eq!((side.register_write)(&mut table, FunctionId(0x0100), 4), Moved { number: 0, count: 1 });
        expect_error(side, &table, &ask(0, 16), 0x04);
        assert_eq!(serve(side, &request(0x87, &[]), &mut table), reply(0x07, &[]));
        expect_error(side, &table, &ask(0, 16), 0x04);
    });
}

#[test]
fn checks_go_in_order() {
    both(|side| {
        let table = record_0100();
        // All wrong at once, then one fault less each time: version, type, length, interface, state.
        let mut wrong = [&[0x11, 0x88, 0, 0, 0x01, 0x01][..], &[0; 40]].concat();
        let code = |request: &[u8]| serve(side, request, &mut table.clone())[16..20].to_vec();
        assert_eq!(code(&wrong), [0x41, 0, 0, 0]);
        wrong[0] = 0x10;
        assert_eq!(code(&wrong), [0x07, 0, 0, 0]);
        wrong[1] = 0x86;
        assert_eq!(code(&wrong), [0x01, 0, 0, 0]);
        wrong.resize(48, 0);
        assert_eq!(code(&wrong), [0x01, 0x01, 0, 0]);
        wrong[4] = 0x00;
        assert_eq!(code(&wrong), [0x04, 0, 0, 0]);
    });
}

#[test]
fn a_lock_checks_flags_offset_stream_and_nonce_in_that_order() {
    both(|side| {
        let lend = |request: &[u8], ready: bool, streams: &[u8; 32]| {
            let (mut table, mut buffer) = (record_0100(), [0; 256]);
            (side.respond)(request, &mut buffer, &mut table, &nonce(), ready, streams, Session(7));
            (u32::from_le_bytes(buffer[16..20].try_into().unwrap()), table == record_0100())
        };
        for flags in [0x02, 0x08, 0x10, 0x1F] {
            assert_eq!(lend(&lock(flags, 0), false, &[0; 32]), (0x01, true));
        }
        assert_eq!(lend(&lock(5, 1), false, &[0; 32]), (0x01, true));
        assert_eq!(lend(&lock(5, 0), false, &[0; 32]), (0x104, true));
        assert_eq!(lend(&lock(5, 0), false, &stream_3()), (0x103, true));
        assert!(!lend(&lock(5, 0), true, &stream_3()).1);
    });
}

#[test]
fn ignored_flags_are_stored_as_zero() {
    both(|side| {
        let mut table = record_0100();
        let mut request = lock(0xFFE4, 0);
        // The reserved byte and the P2P mask are ignored.
        request[19] = 0xFF;
        request[28..].fill(0xFF);
        assert_eq!(serve(side, &request, &mut table)[1], 0x03);
        assert_eq!(hex(&table), hex(&locked(record_0100(), 4)));
    });
}

#[test]
fn a_wrong_guess_spends_nothing() {
    both(|side| {
        let table = locked(record_0100(), 5);
        let mut guess = nonce();
        guess[31] ^= 0x80;
        expect_error(side, &table, &request(0x86, &guess), 0x102);
        // The right one is spent: state 2, nonce cleared, lock fields kept.
        expect(side, &table, &request(0x86, &nonce()), &reply(0x06, &[]), &running(record_0100(), 5));
    });
}

#[test]
fn stop_clears_lock_fields_and_nonce() {
    both(|side| {
        for mut table in [locked(record_0100(), 5), running(record_0100(), 5), in_error(record_0100())] {
            if table[4] != 3 {
                table[24..32].copy_from_slice(&(-8192i64).to_le_bytes());
            }
            expect(side, &table, &request(0x87, &[]), &reply(0x07, &[]), &record_0100());
        }
    });
}

#[test]
fn identities_and_reserved_bits() {
    both(|side| {
        let table = [named(record_0100(), 0x0000_0100), in_error(named(record_0100(), 0x0102_0100))].concat();
        // (identity, state it finds)
        let known = [
            (0x0000_0100, 0),
            (0x00AB_0100, 0), // a segment marked not valid is not compared
            (0xFE00_0100, 0), // bits 31:25 are ignored
            (0x0102_0100, 3),
            (0xFF02_0100, 3),
        ];
        for (id, state) in known {
            let mut request = request(0x85, &[]);
            request[2..4].fill(0xAA);
            request[4..8].copy_from_slice(&u32::to_le_bytes(id));
            request[8..16].fill(0xBB);
            // The 12 bytes come back as received, the reply's own reserved bytes are zero.
            let expected = [&[0x10, 0x05, 0, 0], &request[4..16], &[state]].concat();
            expect(side, &table, &request, &expected, &table);
        }
        for unknown in [0x0100_0100u32, 0x0103_0100, 0x0000_0101, 0x0102_0101] {
            let mut request = request(0x85, &[]);
            request[4..8].copy_from_slice(&unknown.to_le_bytes());
            let expected = [&[0x10, 0x7F, 0, 0], &request[4..16], &[0x01, 0x01, 0, 0, 0, 0, 0, 0]].concat();
            expect(side, &table, &request, &expected, &table);
            let write = (side.register_write)(&mut table.clone(), FunctionId(unknown), 1);
            assert_eq!(write, Moved { number: 7, count: 0 });
        }
    });
}

/// A record with everything in it: INTERFACE_INFO 1Eh, MSI-X control 1234h, LNR 5678h, TPH 9ABCDEF0h, two ranges, three bytes.
fn reporting_record(flags: u8) -> Vec<u8> {
    let mut record = locked(with_range(with_range(record_0100(), 0x20, 2, 0x000F, 1), 0x1000, 0x10, 0x0003, 9), flags);
    record[12..18].copy_from_slice(&[0x1E, 0x00, 0x34, 0x12, 0x78, 0x56]);
    record[20..24].copy_from_slice(&[0xF0, 0xDE, 0xBC, 0x9A]);
    record[24..32].copy_from_slice(&(-0x1_0000i64).to_le_bytes());
    record[200] = 3;
    record[204..207].copy_from_slice(b"kPa");
    record
}

#[test]
fn a_report_with_and_without_its_flags() {
    both(|side| {
        // NO_FW_UPDATE and LOCK_MSIX: bit 0 of INTERFACE_INFO set, MSI-X control and attributes shown; first pages 16 lower.
        let with = [
            &[0x1F, 0x00, 0x00, 0x00, 0x34, 0x12, 0x78, 0x56, 0xF0, 0xDE, 0xBC, 0x9A, 2, 0, 0, 0][..],
            &[0x10, 0, 0, 0, 0, 0, 0, 0, 2, 0, 0, 0, 0x0F, 0, 1, 0],
            &[0xF0, 0x0F, 0, 0, 0, 0, 0, 0, 0x10, 0, 0, 0, 0x03, 0, 9, 0],
            &[3, 0, 0, 0, b'k', b'P', b'a'],
        ]
        .concat();
        // Neither: bit 0 clear, MSI-X control 0, attribute bits 0 and 1 cleared; TPH and LNR as they are.
        let without = [
            &[0x1E, 0x00, 0x00, 0x00, 0x00, 0x00, 0x78, 0x56, 0xF0, 0xDE, 0xBC, 0x9A, 2, 0, 0, 0][..],
            &[0x10, 0, 0, 0, 0, 0, 0, 0, 2, 0, 0, 0, 0x0C, 0, 1, 0],
            &[0xF0, 0x0F, 0, 0, 0, 0, 0, 0, 0x10, 0, 0, 0, 0x00, 0, 9, 0],
            &[3, 0, 0, 0, b'k', b'P', b'a'],
        ]
        .concat();
        for (flags, report) in [(5, with), (0, without)] {
            let table = reporting_record(flags);
            let whole = reply(0x04, &[&[55, 0, 0, 0], &report[..]].concat());
            expect(side, &table, &request(0x84, &[0, 0, 0xFF, 0xFF]), &whole, &table);
            // OFFSET 10, LENGTH 20: portion 20, remainder 25.
            let part = reply(0x04, &[&[20, 0, 25, 0], &report[10..30]].concat());
            expect(side, &table, &request(0x84, &[10, 0, 20, 0]), &part, &table);
            assert_eq!((side.read_report)(&report).number, 0);
        }
    });
}

// ---- The refusal table ----------------------------------------------------------------------------------------------

/// One state query with buffers of these lengths, on this table; everything must stay as it was.
fn refused(side: &Side, table: &[u8], reply: usize, request_len: usize, nonce: usize, streams: usize) -> u32 {
    let mut request = request(0x85, &[]);
    request.resize(request_len, 0);
    let (mut lent, mut buffer) = (table.to_vec(), vec![0xEE; reply]);
    let answer = (side.respond)(&request, &mut buffer, &mut lent, &vec![1; nonce], true, &vec![0xFF; streams], Session(0));
    if answer.number != 0 {
        assert_eq!(answer.length, 0);
        assert!(lent == table && buffer.iter().all(|byte| *byte == 0xEE), "unchanged");
    }
    answer.number
}

#[test]
fn the_lowest_number_wins() {
    both(|side| {
        let good = record_0100();
        let bad = [record_0100(), record_0100(), vec![0xFF; 256]].concat();
        let equal = [record_0100(), record_0100()].concat();
        for length in [0, 1, 255, 257, 511, 16_383, 16_385, 16_640] {
            assert_eq!(refused(side, &vec![0; length], 0, 0, 0, 0), 1);
        }
        assert_eq!(refused(side, &bad, 0, 0, 0, 0), 2);
        assert_eq!(refused(side, &equal, 0, 0, 0, 0), 3);
        assert_eq!(refused(side, &good, 255, 0, 0, 0), 4);
        assert_eq!(refused(side, &good, 256, 15, 0, 0), 5);
        assert_eq!(refused(side, &good, 256, 16, 31, 32), 6);
        assert_eq!(refused(side, &good, 256, 16, 32, 33), 6);
        assert_eq!(refused(side, &good, 256, 16, 32, 32), 0);
    });
}

#[test]
fn sixty_four_records_are_the_most() {
    both(|side| {
        let table: Vec<u8> = (0..65).flat_map(|id| named(record_0100(), id)).collect();
        assert_eq!((side.firmware)(&table[..16_384]), Yes { number: 0, yes: 1 });
        assert_eq!((side.firmware)(&table), Yes { number: 1, yes: 0 });
    });
}

#[test]
fn record_rules() {
    both(|side| {
        let number = |record: Vec<u8>| (side.firmware)(&record).number;
        let set = |mut record: Vec<u8>, at: usize, byte: u8| {
            record[at] = byte;
            record
        };
        let (idle, lock, run) = (record_0100(), locked(record_0100(), 5), running(record_0100(), 5));
        for record in [&idle, &lock, &run, &in_error(idle.clone())] {
            assert_eq!(number(record.clone()), 0);
            // FUNCTION_ID 31:25, a segment without its valid bit, state 4, byte 11, INTERFACE_INFO bit 0 and bit 5, unused bytes.
            let places =
                [(3, 2), (2, 1), (4, 4), (11, 1), (12, 1), (12, 0x20), (13, 1), (18, 1), (32, 1), (39, 1), (10, 9), (72, 1)];
            for (at, byte) in places.into_iter().chain([(199, 1), (200, 53), (203, 1), (204, 1), (255, 1)]) {
                assert_eq!(number(set(record.clone(), at, byte)), 2, "byte {at} set to {byte}");
            }
        }
        // Held is 1 exactly in CONFIG_LOCKED; otherwise the nonce is zero.
        assert_eq!(number(set(lock.clone(), 5, 0)), 2);
        for record in [&idle, &run] {
            assert_eq!(number(set(record.clone(), 5, 1)), 2);
            assert_eq!(number(set(record.clone(), 71, 1)), 2);
        }
        // A nonce of zeros is a nonce.
        let mut zero_nonce = lock.clone();
        zero_nonce[40..72].fill(0);
        assert_eq!(number(zero_nonce), 0);
        // The lock fields.
        for at in [6, 7, 8, 9, 25, 31] {
            assert_eq!(number(set(idle.clone(), at, 0x10)), 2, "byte {at}");
        }
        for record in [&lock, &run] {
            assert_eq!(number(set(record.clone(), 6, 2)), 2);
            assert_eq!(number(set(record.clone(), 24, 1)), 2);
            assert_eq!(number(set(record.clone(), 25, 0x10)), 0);
        }
    });
}

#[test]
fn range_rules() {
    both(|side| {
        let with = |ranges: &[(u64, u32, u16, u16)]| {
            let add = |record, &(first, pages, attributes, id): &_| with_range(record, first, pages, attributes, id);
            (side.firmware)(&ranges.iter().fold(record_0100(), add)).number
        };
        let top = 1u64 << 52;
        assert_eq!(with(&[(0, 1, 0x000F, 0xFFFF), (top - 1, 1, 0, 7), (top - 0xFFFF_FFFF, 0xFFFF_FFFF, 0, 8)]), 0);
        for bad in [(0, 0, 0, 0), (top, 1, 0, 0), (top - 1, 2, 0, 0), (u64::MAX, 1, 0, 0), (0, 1, 0x0010, 0), (0, 1, 0x8000, 0)] {
            assert_eq!(with(&[bad]), 2, "{bad:?}");
        }
        let ids = |ids: &[u16]| with(&ids.iter().map(|id| (0, 1, 0, *id)).collect::<Vec<_>>());
        // 3, 9, 2 falls; 9, 0 and 3, 9, 3 do not.
        assert_eq!([ids(&[3, 9, 2]), ids(&[1, 0]), ids(&[0, 7, 8, 6])], [2, 2, 2]);
        assert_eq!([ids(&[9, 0]), ids(&[3, 9, 3]), ids(&[0, 0, 1, 2, 3, 4, 5, 7])], [0, 0, 0]);
    });
}

#[test]
fn a_stored_offset_meets_the_lock_rule() {
    both(|side| {
        let stored = |offset: i64| {
            let mut record = running(with_range(with_range(record_0100(), 16, 1, 0, 0), (1 << 52) - 2, 1, 0, 1), 0);
            record[24..32].copy_from_slice(&offset.to_le_bytes());
            (side.firmware)(&record).number
        };
        assert_eq!([stored(-65536), stored(0), stored(4096)], [0, 0, 0]);
        assert_eq!([stored(-69632), stored(8192), stored(4095), stored(i64::MIN)], [2, 2, 2, 2]);
    });
}

// ---- Changes --------------------------------------------------------------------------------------------------------

#[test]
fn every_class() {
    both(|side| {
        for class in 0..=255 {
            for (state, flags) in [(1, 0), (1, 4), (2, 1), (2, 5)] {
                let before = if state == 1 { locked(record_0100(), flags) } else { running(record_0100(), flags) };
                let to_error = match class {
                    1 | 3 | 9 | 11 | 12 | 13 | 14 | 15 => false,
                    2 => flags & 4 != 0,
                    _ => true,
                };
                let mut table = before.clone();
                let moved = (side.register_write)(&mut table, FunctionId(0x0100), class);
                assert_eq!(moved, Moved { number: 0, count: to_error.into() }, "class {class}");
                assert_eq!(table, if to_error { in_error(record_0100()) } else { before }, "class {class}");
            }
            for idle in [record_0100(), in_error(record_0100())] {
                let mut table = idle.clone();
                assert_eq!((side.register_write)(&mut table, FunctionId(0x0100), class), Moved { number: 0, count: 0 });
                assert_eq!(table, idle);
            }
        }
    });
}

/// Four interfaces: 100h locked, 101h running, 102h unlocked, 103h locked last. All locks are on stream 3, session 7.
fn four() -> Vec<u8> {
    [
        locked(record_0100(), 0),
        named(running(record_0100(), 0), 0x0101),
        named(record_0100(), 0x0102),
        named(locked(record_0100(), 0), 0x0103),
    ]
    .concat()
}

#[test]
fn device_wide_events_move_all_and_the_last() {
    both(|side| {
        let after = [
            in_error(record_0100()),
            named(in_error(record_0100()), 0x0101),
            named(record_0100(), 0x0102),
            named(in_error(record_0100()), 0x0103),
        ]
        .concat();
        let three = Moved { number: 0, count: 3 };
        let check = |event: &dyn Fn(&mut [u8]) -> Moved, moved: Moved, after: &[u8]| {
            let mut table = four();
            assert_eq!(event(&mut table), moved);
            assert_eq!(hex(&table), hex(after));
        };
        check(&|table| (side.multicast)(table), three, &after);
        check(&|table| (side.stream_down)(table, Stream(3)), three, &after);
        check(&|table| (side.session_end)(table, Session(7)), three, &after);
        // Class 10 is device-wide whoever is named; naming nobody is 7.
        check(&|table| (side.register_write)(table, FunctionId(0x0102), 10), three, &after);
        check(&|table| (side.register_write)(table, FunctionId(0x0104), 10), Moved { number: 7, count: 0 }, &four());
        // Numbers that no lock has; a stream is no session; the zeros of 102h bind nothing.
        let none = Moved { number: 0, count: 0 };
        check(&|table| (side.stream_down)(table, Stream(7)), none, &four());
        check(&|table| (side.session_end)(table, Session(3)), none, &four());
        check(&|table| (side.stream_down)(table, Stream(0)), none, &four());
        check(&|table| (side.session_end)(table, Session(0)), none, &four());
    });
}

#[test]
fn events_are_refused_like_requests() {
    both(|side| {
        let equal = [record_0100(), record_0100()].concat();
        let mut broken = record_0100();
        broken[11] = 1;
        for (table, number) in [(vec![0; 100], 1), (broken, 2), (equal, 3)] {
            let mut lent = table.clone();
            let refused = Moved { number, count: 0 };
            assert_eq!((side.multicast)(&mut lent), refused);
            assert_eq!((side.stream_down)(&mut lent, Stream(3)), refused);
            assert_eq!((side.session_end)(&mut lent, Session(7)), refused);
            assert_eq!((side.register_write)(&mut lent, FunctionId(0x0100), 4), refused);
            assert_eq!((side.firmware)(&lent), Yes { number, yes: 0 });
            assert_eq!(lent, table);
        }
    });
}

#[test]
fn the_firmware_question() {
    both(|side| {
        let yes = |table: Vec<u8>| (side.firmware)(&table);
        assert_eq!(yes(four()), Yes { number: 0, yes: 1 });
        assert_eq!(yes([four(), named(locked(record_0100(), 4), 0x0104)].concat()), Yes { number: 0, yes: 1 });
        assert_eq!(yes([four(), named(locked(record_0100(), 1), 0x0104)].concat()), Yes { number: 0, yes: 0 });
        assert_eq!(yes([named(running(record_0100(), 5), 0x0104), four()].concat()), Yes { number: 0, yes: 0 });
    });
}

// ---- Reports read and written ---------------------------------------------------------------------------------------

/// A report of one range and two bytes of information: 38 bytes.
const REPORT: [u8; 38] = [
    0x1F, 0, 0, 0, 0x34, 0x12, 0x78, 0x56, 0xF0, 0xDE, 0xBC, 0x9A, 1, 0, 0, 0, // info, zero, MSI-X, LNR, TPH, N
    0x10, 0, 0, 0, 0, 0, 0, 0, 4, 0, 0, 0, 0x0F, 0, 7, 0, // first, pages, attributes, ID
    2, 0, 0, 0, 0xAB, 0xCD, // L, information
];

fn report_fields() -> Report {
    let mut fields = Report { info: 0x1F, msix: 0x1234, lnr: 0x5678, tph: 0x9ABC_DEF0, n: 1, l: 2, ..Report::ZERO };
    fields.ranges[0] = Range { first: 0x10, pages: 4, attributes: 0x0F, id: 7 };
    fields.information[..2].copy_from_slice(&[0xAB, 0xCD]);
    fields
}

#[test]
fn a_report_is_read_and_written_back() {
    both(|side| {
        assert_eq!((side.read_report)(&REPORT), report_fields());
        // The number, ranges past N and information past L are not read.
        let mut fields = Report { number: 99, ..report_fields() };
        fields.ranges[1] = Range { first: u64::MAX, pages: 0, attributes: 0xFFFF, id: 0 };
        fields.information[2..].fill(0xFF);
        let mut output = [0xEE; 201];
        assert_eq!((side.write_report)(&fields, &mut output), Answer { number: 0, length: 38 });
        assert_eq!(output[..38], REPORT);
        assert_eq!(output[38..], [0xEE; 163]);
    });
}

#[test]
fn the_reader_refuses_in_order() {
    both(|side| {
        // The report with bytes set; each refusal hands back zeros.
        let read = |length: usize, changes: &[(usize, u8)]| {
            let mut report = [&REPORT[..], &[0; 200]].concat();
            report.truncate(length);
            for &(at, byte) in changes {
                report[at] = byte;
            }
            let fields = (side.read_report)(&report);
            assert!(fields.number == 0 || fields == Report { number: fields.number, ..Report::ZERO });
            fields.number
        };
        assert_eq!(read(38, &[]), 0);
        assert_eq!(read(19, &[(12, 9)]), 20);
        assert_eq!([read(20, &[(12, 9)]), read(38, &[(15, 1)])], [21, 21]);
        assert_eq!(read(35, &[]), 20);
        assert_eq!([read(36, &[(32, 53)]), read(38, &[(35, 1)])], [21, 21]);
        assert_eq!(read(37, &[(1, 1)]), 20);
        assert_eq!(read(39, &[(1, 1), (24, 0)]), 22);
        for (at, byte) in [(0, 0x20), (1, 1), (2, 1), (3, 1), (28, 0x10), (29, 1)] {
            assert_eq!(read(38, &[(at, byte), (24, 0)]), 23);
        }
        assert_eq!(read(38, &[(24, 0)]), 24);
        // First page 2^52 - 4 with 4 pages fits, 2^52 - 3 does not; 2^64 - 4 does not wrap.
        let high = [(16, 0xFC), (17, 0xFF), (18, 0xFF), (19, 0xFF), (20, 0xFF), (21, 0xFF), (22, 0x0F)];
        assert_eq!(read(38, &high), 0);
        assert_eq!(read(38, &[&high[..], &[(16, 0xFD)]].concat()), 24);
        assert_eq!(read(38, &[&high[..], &[(22, 0xFF), (23, 0xFF)]].concat()), 24);
    });
}

#[test]
fn reserved_bits_come_before_pages_and_pages_before_ids() {
    both(|side| {
        // Two ranges: the first with a bad page count or a high ID, the second with a reserved bit or a low ID.
        let number = |pages: u32, attributes: u16| {
            let mut fields = Report { n: 2, ..Report::ZERO };
            fields.ranges[0] = Range { first: 0, pages, attributes: 0, id: 5 };
            fields.ranges[1] = Range { first: 0, pages: 1, attributes, id: 4 };
            let mut bytes = [0; 52];
            bytes[12] = 2;
            for (place, range) in bytes[16..48].chunks_mut(16).zip(fields.ranges) {
                place[8] = range.pages as u8;
                place[12] = range.attributes as u8;
                place[14] = range.id as u8;
            }
            let written = (side.write_report)(&fields, &mut [0; 200]);
            assert_eq!(written.length, 0);
            let read = (side.read_report)(&bytes);
            assert_eq!(read.number, written.number);
            read.number
        };
        assert_eq!([number(0, 0x10), number(0, 0), number(1, 0)], [23, 24, 25]);
    });
}

#[test]
fn the_writer_refuses_in_order() {
    both(|side| {
        let write = |fields: Report, length: usize| {
            let mut output = vec![0xEE; length];
            let answer = (side.write_report)(&fields, &mut output);
            assert_eq!(answer.length, 0);
            assert!(output.iter().all(|byte| *byte == 0xEE), "a refusal writes nothing");
            answer.number
        };
        let (nine, long) = (Report { n: 9, ..report_fields() }, Report { l: 53, ..report_fields() });
        assert_eq!([write(nine, 199), write(report_fields(), 0), write(report_fields(), 199)], [26, 26, 26]);
        assert_eq!([write(nine, 200), write(long, 200), write(Report { info: 0x20, ..long }, 200)], [21, 21, 21]);
        assert_eq!(write(Report { n: u32::MAX, ..report_fields() }, 200), 21);
        assert_eq!(write(Report { info: 0x8000, ..report_fields() }, 200), 23);
        let mut empty_range = report_fields();
        empty_range.ranges[0].pages = 0;
        assert_eq!(write(empty_range, 200), 24);
    });
}
