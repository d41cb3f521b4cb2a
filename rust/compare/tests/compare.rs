//! The proved responder against the ordinary one: the number, the length, count or answer, every byte of the reply buffer and
//! every byte of the table. A difference prints the seed, both answers and the whole input, and fails.
//!
//! TDISP_SEED sets another seed (a number, or "fresh").

use compare::calls::{Call, ORDINARY, Outcome, PROVED, hex};
use compare::cases::{self, RECORD, Rng, say, seed_of};
use compare::ordinary;
use std::collections::BTreeMap;
use tdisp::{Answer, FunctionId, Report, Session, Stream};

// How many calls each test makes; the sweeps add more than 400,000.
const VALID: u64 = 600_000;
const SPOILED: u64 = 400_000;
const WILD: u64 = 300_000;
const HISTORIES: u64 = 600_000;
const FULL: u64 = 20_000;
const READS: u64 = 300_000;
const WRITES: u64 = 300_000;
const _: () = assert!(VALID + SPOILED + WILD + HISTORIES + FULL + READS + WRITES >= 1_000_000);

/// Runs both on the same input, compares all that comes back, and keeps what it saw: a count by number and, for a served
/// request, by reply code and error code.
struct Compare {
    test: &'static str,
    seed: u64,
    calls: u64,
    seen: BTreeMap<String, u64>,
}

impl Compare {
    fn new(test: &'static str) -> Compare {
        Compare { test, seed: seed_of(test), calls: 0, seen: BTreeMap::new() }
    }

    /// The next case has a seed of its own.
    fn next_case(&self) -> Rng {
        Rng::new(self.seed.wrapping_add(self.calls.wrapping_mul(0x5851_F42D_4C95_7F2D)))
    }

    fn call(&mut self, call: &Call, table: &mut Vec<u8>) -> Outcome {
        let before = table.clone();
        let mut proved_table = before.clone();
        let proved = PROVED.run(call, &mut proved_table);
        let ordinary = ORDINARY.run(call, table);
        if proved != ordinary || proved_table != *table {
            panic!(
                "a difference in call {} of seed {:#018x}\nproved:   {proved}\nordinary: {ordinary}\n{call}\n\
                 table before ({}): {}\ntable after, proved:   {}\ntable after, ordinary: {}",
                self.calls,
                self.seed,
                before.len(),
                hex(&before),
                hex(&proved_table),
                hex(table),
            );
        }
        self.count(label(call, &ordinary));
        ordinary
    }

    fn read(&mut self, report: &[u8]) -> Report {
        let (proved, ordinary) = (tdisp::read_report(report), ordinary::read_report(report));
        if proved != ordinary {
            panic!(
                "a difference in reading {} of seed {:#018x}\nproved:   {proved:?}\nordinary: {ordinary:?}\nreport ({}): {}",
                self.calls,
                self.seed,
                report.len(),
                hex(report),
            );
        }
        self.count(format!("number {}", ordinary.number));
        ordinary
    }

    /// Writes into two copies of `before`; gives the answer and the output.
    fn write(&mut self, fields: &Report, before: &[u8]) -> (Answer, Vec<u8>) {
        let (mut proved_output, mut output) = (before.to_vec(), before.to_vec());
        let proved = tdisp::write_report(fields, &mut proved_output);
        let ordinary = ordinary::write_report(fields, &mut output);
        if (proved, &proved_output) != (ordinary, &output) {
            panic!(
                "a difference in writing {} of seed {:#018x}\nproved:   {proved:?} {}\nordinary: {ordinary:?} {}\n\
                 fields {fields:?}\noutput before ({}): {}",
                self.calls,
                self.seed,
                hex(&proved_output),
                hex(&output),
                before.len(),
                hex(before),
            );
        }
        self.count(format!("number {}", ordinary.number));
        (ordinary, output)
    }

    fn count(&mut self, label: String) {
        self.calls += 1;
        *self.seen.entry(label).or_default() += 1;
    }

    /// Prints what was seen. A run that never met one of these answers would show little.
    fn done(self, expected: &[&str]) {
        let seen: Vec<String> = self.seen.iter().map(|(label, count)| format!("{label}: {count}")).collect();
        say(&format!("{}: {} calls, no difference ({})", self.test, self.calls, seen.join(", ")));
        for label in expected {
            assert!(self.seen.contains_key(*label), "no call got {label}");
        }
    }
}

fn label(call: &Call, outcome: &Outcome) -> String {
    match call {
        Call::Respond { .. } if outcome.number == 0 && outcome.reply[1] == 0x7F => {
            format!("error {:X}h", u32::from_le_bytes(outcome.reply[16..20].try_into().unwrap()))
        }
        Call::Respond { .. } if outcome.number == 0 => format!("reply {:02X}h", outcome.reply[1]),
        _ if outcome.number == 0 => "number 0".into(),
        _ => format!("number {}", outcome.number),
    }
}

const REPLIES: [&str; 7] = ["reply 01h", "reply 02h", "reply 03h", "reply 04h", "reply 05h", "reply 06h", "reply 07h"];
const ERRORS: [&str; 8] =
    ["error 1h", "error 4h", "error 7h", "error 41h", "error 101h", "error 102h", "error 103h", "error 104h"];

// ---- Random cases ---------------------------------------------------------------------------------------------------

#[test]
fn valid_tables() {
    let mut compare = Compare::new("valid tables");
    while compare.calls < VALID {
        let mut rng = compare.next_case();
        let records = rng.pick(&[1, 1, 2, 3, 4]);
        let table = cases::valid_table(&mut rng, records);
        for _ in 0..4 {
            let call = cases::call(&mut rng, &table, false);
            let outcome = compare.call(&call, &mut table.clone());
            assert!(!(1..=3).contains(&outcome.number), "a valid table was refused: {}", hex(&table));
        }
    }
    compare.done(&[&REPLIES[..], &ERRORS, &["number 0", "number 4", "number 5", "number 6", "number 7"]].concat());
}

#[test]
fn tables_spoiled_in_one_place() {
    let mut compare = Compare::new("tables spoiled in one place");
    while compare.calls < SPOILED {
        let mut rng = compare.next_case();
        let records = rng.pick(&[1, 2, 2, 3, 5]);
        let valid = cases::valid_table(&mut rng, records);
        let call = cases::call(&mut rng, &valid, false);

        let mut spoiled = valid.clone();
        let number = cases::spoil(&mut rng, &mut spoiled);
        let before = spoiled.clone();
        let outcome = compare.call(&call, &mut spoiled);
        assert_eq!((outcome.number, outcome.value), (number, 0), "the table is {}", hex(&before));
        assert_eq!(before, spoiled, "a refusal changed the table");

        let mut scratched = valid;
        cases::scratch(&mut rng, &mut scratched);
        compare.call(&call, &mut scratched);
    }
    compare.done(&["number 0", "number 1", "number 2", "number 3"]);
}

#[test]
fn wild_bytes() {
    let mut compare = Compare::new("wild bytes");
    while compare.calls < WILD {
        let mut rng = compare.next_case();
        let mut table = match rng.below(3) {
            0 => cases::wild_table(&mut rng),
            _ => cases::valid_table(&mut rng, 1),
        };
        compare.call(&cases::wild_call(&mut rng), &mut table.clone());
        compare.call(&cases::call(&mut rng, &table, false), &mut table);
    }
    compare.done(&["number 1", "number 2", "number 4", "number 5", "number 6", "number 7"]);
}

#[test]
fn histories() {
    let mut compare = Compare::new("histories");
    while compare.calls < HISTORIES {
        let mut rng = compare.next_case();
        let records = rng.pick(&[1, 2, 3, 4, 6]);
        let mut table = cases::valid_table_in(&mut rng, records, &[0, 0, 1, 2, 3]);
        for _ in 0..100 {
            let call = cases::call(&mut rng, &table, true);
            compare.call(&call, &mut table);
        }
    }
    compare.done(&[&REPLIES[..], &ERRORS].concat());
}

#[test]
fn full_tables() {
    let mut compare = Compare::new("tables of 60 to 64 records");
    while compare.calls < FULL {
        let mut rng = compare.next_case();
        let records = 60 + rng.index(5);
        let mut table = cases::valid_table(&mut rng, records);
        for _ in 0..20 {
            let call = cases::call(&mut rng, &table, true);
            compare.call(&call, &mut table);
        }
        let mut spoiled = table.clone();
        let number = cases::spoil(&mut rng, &mut spoiled);
        let call = cases::call(&mut rng, &table, false);
        assert_eq!(compare.call(&call, &mut spoiled).number, number);
    }
    compare.done(&[&REPLIES[..], &["number 1", "number 2", "number 3"]].concat());
}

#[test]
fn reports_read() {
    let mut compare = Compare::new("reports read");
    while compare.calls < READS {
        let mut rng = compare.next_case();
        compare.read(&cases::report(&mut rng));
    }
    compare.done(&["number 0", "number 20", "number 21", "number 22", "number 23", "number 24", "number 25"]);
}

#[test]
fn reports_written() {
    let mut compare = Compare::new("reports written");
    while compare.calls < WRITES {
        let mut rng = compare.next_case();
        let mut fields = cases::valid_fields(&mut rng);
        let spoiled = rng.once_in(2);
        if spoiled {
            cases::spoil_fields(&mut rng, &mut fields);
        }
        let length = if rng.once_in(16) { rng.pick(&[0, 20, 199, 256]) } else { 200 + rng.index(3) };
        let before = rng.bytes(length);
        let (answer, output) = compare.write(&fields, &before);
        if !spoiled && length >= 200 {
            let report = cases::report_bytes(&fields);
            assert_eq!(answer, Answer { number: 0, length: report.len() as u32 });
            assert_eq!(output, [&report, &before[report.len()..]].concat());
        }
    }
    compare.done(&["number 0", "number 21", "number 23", "number 24", "number 25", "number 26"]);
}

// ---- Sweeps: every value at an edge ---------------------------------------------------------------------------------

/// A table of one record, 0100h, with three ranges that leave room on both sides, in that state.
fn one_record(state: u8, flags: u8) -> Vec<u8> {
    let mut table = vec![0; RECORD];
    table[1] = 1;
    table[4] = state;
    table[10] = 3;
    table[12..18].copy_from_slice(&[0x1E, 0, 0x34, 0x12, 0x78, 0x56]);
    table[20..24].copy_from_slice(&[1, 2, 3, 4]);
    for (index, range) in table[72..120].chunks_mut(16).enumerate() {
        range[..2].copy_from_slice(&[0x20, 0x10]);
        range[8] = 4;
        range[12] = 0x0F;
        range[14] = 2 * index as u8;
    }
    table[200] = 20;
    table[204..224].fill(0xA5);
    if state == 1 || state == 2 {
        table[6..10].copy_from_slice(&[flags, 0, 3, 7]);
        table[24..32].copy_from_slice(&(-4096i64).to_le_bytes());
    }
    if state == 1 {
        table[5] = 1;
        table[40..72].copy_from_slice(&NONCE);
    }
    table
}

const NONCE: [u8; 32] = *b"thirty-two bytes of a nonce held";

/// A request of that type for 0100h with the payload.
fn request(kind: u8, payload: &[u8]) -> Vec<u8> {
    let mut request = vec![0; 16];
    request[..2].copy_from_slice(&[0x10, kind]);
    request[5] = 1;
    request.extend(payload);
    request
}

/// The request with right buffers: 256 bytes of reply, a nonce that is ready, all streams secure.
fn lent(request: Vec<u8>) -> Call {
    Call::Respond {
        request,
        reply: vec![0xEE; 256],
        nonce: vec![0xC3; 32],
        ready: true,
        streams: vec![0xFF; 32],
        session: Session(9),
    }
}

fn lock_payload(flags: u16, stream: u8, offset: i64) -> Vec<u8> {
    let mut payload = vec![0xFF; 20];
    payload[..2].copy_from_slice(&flags.to_le_bytes());
    payload[2] = stream;
    payload[4..12].copy_from_slice(&offset.to_le_bytes());
    payload
}

/// Every byte of a record with every value, in each state, alone and as the second of two records.
#[test]
fn every_byte_of_a_record() {
    let mut compare = Compare::new("every byte of a record");
    for state in 0..4 {
        for at in 0..RECORD {
            for value in 0..=255 {
                let mut table = one_record(state, 5);
                table[at] = value;
                compare.call(&Call::Firmware, &mut table);
            }
            let mut table = [one_record(state, 4), one_record(state, 4)].concat();
            table[0] = 1;
            table[RECORD + at] ^= 1;
            compare.call(&Call::Multicast, &mut table);
        }
    }
    compare.done(&["number 0", "number 2", "number 3"]);
}

/// Every type with every length near the listed ones, right and wrong versions, in each state.
#[test]
fn every_type_length_version_and_state() {
    let mut compare = Compare::new("every type, length, version and state");
    for state in 0..4 {
        for kind in 0..=255 {
            for length in 14..=50 {
                let payload = if kind == 0x86 { NONCE } else { [0; 32] };
                let mut whole = request(kind, &payload);
                whole.resize(length, 0);
                compare.call(&lent(whole), &mut one_record(state, 5));
            }
            for version in [0, 0x0F, 0x11, 0x20, 0xFF] {
                let mut other = request(kind, &[]);
                other[0] = version;
                compare.call(&lent(other), &mut one_record(state, 5));
            }
        }
    }
    for version in 0..=255 {
        let mut other = request(0x85, &[]);
        other[0] = version;
        compare.call(&lent(other), &mut one_record(2, 5));
    }
    compare.done(&[&REPLIES[..], &["error 1h", "error 4h", "error 7h", "error 41h"]].concat());
}

/// Locks: all flags, all streams in two maps each, offsets at every range's edge and at powers of two.
#[test]
fn locks() {
    let mut compare = Compare::new("locks");
    for flags in 0..=u16::MAX {
        compare.call(&lent(request(0x83, &lock_payload(flags, 3, 0))), &mut one_record(0, 0));
    }
    for stream in 0..=255u8 {
        for secure in [true, false] {
            let mut call = lent(request(0x83, &lock_payload(5, stream, 4096)));
            if let Call::Respond { streams, .. } = &mut call {
                streams.fill(if secure { 0 } else { 0xFF });
                streams[usize::from(stream / 8)] ^= 1 << (stream % 8);
            }
            compare.call(&call, &mut one_record(0, 0));
        }
    }
    // The ranges are pages 1020h to 1024h: the edges lie at -1020h pages and at 2^52 - 1024h pages.
    let edges = [0, -0x1020 * 4096, 0x7FFF_FFFF_FFFF_F000, i64::MIN, ((1 << 51) - 0x1024) * 4096];
    let powers = (0..63).flat_map(|bit| [1 << bit, -(1 << bit)]);
    for edge in edges.into_iter().chain(powers) {
        for off in [-4097, -4096, -4095, -1, 0, 1, 4095, 4096, 4097] {
            let offset = i64::wrapping_add(edge, off);
            compare.call(&lent(request(0x83, &lock_payload(0, 3, offset))), &mut one_record(0, 0));
            // The same range at the other end of the pages.
            let mut high = one_record(0, 0);
            high[72..80].copy_from_slice(&((1u64 << 52) - 8).to_le_bytes());
            compare.call(&lent(request(0x83, &lock_payload(0, 3, offset))), &mut high);
        }
    }
    compare.done(&["reply 03h", "error 1h", "error 104h"]);
}

/// Starts with each bit of the nonce wrong; locks with nonce bytes that are ready and that are not.
#[test]
fn nonce_bits_and_ready_marks() {
    let mut compare = Compare::new("nonce bits and ready marks");
    for bit in 0..256 {
        let mut guess = NONCE;
        guess[bit / 8] ^= 1 << (bit % 8);
        compare.call(&lent(request(0x86, &guess)), &mut one_record(1, 0));
    }
    compare.call(&lent(request(0x86, &NONCE)), &mut one_record(1, 0));
    for mark in [true, false] {
        let mut call = lent(request(0x83, &lock_payload(5, 3, 0)));
        if let Call::Respond { ready, .. } = &mut call {
            *ready = mark;
        }
        compare.call(&call, &mut one_record(0, 0));
    }
    compare.done(&["error 102h", "reply 06h", "reply 03h", "error 103h"]);
}

/// Portions: every OFFSET to past the longest report, with LENGTHs about each edge, for reports of several lengths.
#[test]
fn portions() {
    let mut compare = Compare::new("portions");
    for (n, l) in [(0, 0), (0, 1), (1, 52), (3, 0), (6, 12), (7, 51), (8, 0), (8, 51), (8, 52)] {
        for flags in [0, 5] {
            let mut table = one_record(1, flags);
            let range = table[72..88].to_vec();
            table[72..].fill(0);
            table[10] = n;
            for place in table[72..200].chunks_mut(16).take(n.into()) {
                place.copy_from_slice(&range);
            }
            table[200] = l;
            table[204..204 + usize::from(l)].fill(0x5A);
            for offset in (0..=203).chain([255, 256, 0x7FFF, 0xFF00, 0xFFFF]) {
                for length in [0, 1, 16, 127, 128, 129, 200, 256, 0xFFFF] {
                    let payload = [u16::to_le_bytes(offset), u16::to_le_bytes(length)].concat();
                    compare.call(&lent(request(0x84, &payload)), &mut table.clone());
                }
            }
        }
    }
    compare.done(&["reply 04h", "error 1h"]);
}

/// Every class in each state, with and without LOCK_MSIX; every stream and session number.
#[test]
fn classes_streams_and_sessions() {
    let mut compare = Compare::new("classes, streams and sessions");
    for state in 0..4 {
        for flags in [0, 1, 4, 5] {
            // A second interface, locked: only a device-wide event may move it.
            let mut table = [one_record(state, flags), one_record(1, 4)].concat();
            table[RECORD] = 1;
            for class in 0..=255 {
                for id in [0x0100, 0x0101, 0x0102] {
                    let call = Call::RegisterWrite { function_id: FunctionId(id), class };
                    compare.call(&call, &mut table.clone());
                }
            }
            for number in 0..=255 {
                compare.call(&Call::StreamDown(Stream(number)), &mut table.clone());
                compare.call(&Call::SessionEnd(Session(number)), &mut table.clone());
            }
        }
    }
    compare.done(&["number 0", "number 7"]);
}

/// Identities one bit away from a record's, with and without a valid segment, in requests and in register writes.
#[test]
fn identities() {
    let mut compare = Compare::new("identities");
    for id in [0x0000_0100u32, 0x0100_0100, 0x0101_0100, 0x01FF_0100] {
        let mut table = one_record(1, 5);
        table[..4].copy_from_slice(&id.to_le_bytes());
        for other in [0, 0xFE00_0000, 0x00FF_0000, 0x01FF_0000].into_iter().chain((0..32).map(|bit| 1 << bit)) {
            let named = id ^ other;
            let mut state = request(0x85, &[]);
            state[4..8].copy_from_slice(&named.to_le_bytes());
            compare.call(&lent(state), &mut table.clone());
            compare.call(&Call::RegisterWrite { function_id: FunctionId(named), class: 4 }, &mut table.clone());
        }
    }
    compare.done(&["reply 05h", "error 101h", "number 0", "number 7"]);
}

// ---- Sweeps: all buffer lengths -------------------------------------------------------------------------------------

#[test]
fn all_buffer_lengths() {
    let mut compare = Compare::new("all buffer lengths");
    let with = |request_len: usize, reply_len: usize, nonce_len: usize, streams_len: usize| {
        let mut request = request(0x83, &lock_payload(5, 3, 0));
        request.resize(request_len, 0);
        Call::Respond {
            request,
            reply: vec![0xEE; reply_len],
            nonce: vec![0xC3; nonce_len],
            ready: true,
            streams: vec![0xFF; streams_len],
            session: Session(9),
        }
    };
    for length in 0..=600 {
        compare.call(&with(length, 256, 32, 32), &mut one_record(0, 0));
        compare.call(&with(36, length, 32, 32), &mut one_record(0, 0));
        compare.call(&with(36, 256, length, 32), &mut one_record(0, 0));
        compare.call(&with(36, 256, 32, length), &mut one_record(0, 0));
    }
    // All together, and with a table that is too short as well: the lowest number wins.
    let edges = [0, 1, 15, 16, 31, 32, 33, 36, 255, 256, 257];
    for request_len in edges {
        for reply_len in edges {
            for nonce_len in edges {
                for streams_len in edges {
                    compare.call(&with(request_len, reply_len, nonce_len, streams_len), &mut one_record(0, 0));
                }
            }
            compare.call(&with(request_len, reply_len, 32, 32), &mut vec![0; 255]);
        }
    }
    compare.done(&["number 1", "number 4", "number 5", "number 6", "reply 03h", "error 1h"]);
}

#[test]
fn all_table_lengths() {
    let mut compare = Compare::new("all table lengths");
    let whole = cases::valid_table(&mut compare.next_case(), 66);
    for length in 0..=whole.len() {
        let mut table = whole[..length].to_vec();
        let call = [Call::Firmware, Call::Multicast, lent(request(0x85, &[]))][length % 3].clone();
        let number = compare.call(&call, &mut table).number;
        let accepted = length % RECORD == 0 && (RECORD..=64 * RECORD).contains(&length);
        assert_eq!(number == 0, accepted, "a table of {length} bytes");
    }
    compare.done(&["number 0", "number 1"]);
}

#[test]
fn all_report_and_output_lengths() {
    let mut compare = Compare::new("all report and output lengths");
    for _ in 0..20 {
        let mut rng = compare.next_case();
        let fields = cases::valid_fields(&mut rng);
        let mut bytes = cases::report_bytes(&fields);
        let whole = bytes.len();
        bytes.extend(rng.bytes(300));
        for length in 0..=bytes.len() {
            assert_eq!(compare.read(&bytes[..length]).number == 0, length == whole);
        }
        for length in 0..=300 {
            let (answer, _) = compare.write(&fields, &bytes[..length]);
            assert_eq!(answer.number, if length < 200 { 26 } else { 0 });
        }
    }
    compare.done(&["number 0", "number 20", "number 22", "number 26"]);
}
