//! Inputs for the tests, from seeds: valid tables, tables spoiled in one place, wild bytes, requests near every rule's edge,
//! reports. The same seed gives the same cases. Layouts and rules are 01's, rendered once more: nothing here asks a
//! responder.

use crate::calls::Call;
use std::io::Write;
use tdisp::{FunctionId, Range, Report, Session, Stream};

pub const RECORD: usize = 256;
/// Every first + pages ends here at the latest.
const END_OF_PAGES: u64 = 1 << 52;
/// The least and the greatest offset/4096 that 64 bits hold.
const LEAST_SHIFT: i64 = -(1 << 51);
const GREATEST_SHIFT: i64 = (1 << 51) - 1;

// ---- Seeds and random numbers ---------------------------------------------------------------------------------------

/// The seed of a test: of its name, and of TDISP_SEED where that is set, to a number or to "fresh" for one by the clock. It
/// is printed, also by a test that passes.
pub fn seed_of(test: &str) -> u64 {
    let base = match std::env::var("TDISP_SEED").as_deref() {
        Ok("fresh") => std::time::UNIX_EPOCH.elapsed().map_or(1, |time| time.as_nanos() as u64),
        Ok(number) => number.parse().expect("TDISP_SEED is a number, or fresh"),
        Err(_) => 1,
    };
    let seed = test.bytes().fold(base, |seed, letter| Rng(seed ^ u64::from(letter)).u64());
    say(&format!("{test}: TDISP_SEED={base}, seed {seed:#018x}"));
    seed
}

/// Prints a line past the capture of test output.
pub fn say(line: &str) {
    writeln!(std::io::stdout(), "{line}").expect("standard output takes a line");
}

/// splitmix64: small, and the same everywhere.
#[derive(Clone)]
pub struct Rng(u64);

impl Rng {
    pub fn new(seed: u64) -> Rng {
        Rng(seed)
    }

    pub fn u64(&mut self) -> u64 {
        self.0 = self.0.wrapping_add(0x9E37_79B9_7F4A_7C15);
        let mut z = self.0;
        z = (z ^ (z >> 30)).wrapping_mul(0xBF58_476D_1CE4_E5B9);
        z = (z ^ (z >> 27)).wrapping_mul(0x94D0_49BB_1331_11EB);
        z ^ (z >> 31)
    }

    /// A number below `end`, which is above 0.
    pub fn below(&mut self, end: u64) -> u64 {
        self.u64() % end
    }

    pub fn index(&mut self, end: usize) -> usize {
        self.below(end as u64) as usize
    }

    /// True once in `n` times.
    pub fn once_in(&mut self, n: u64) -> bool {
        self.below(n) == 0
    }

    pub fn pick<T: Copy>(&mut self, from: &[T]) -> T {
        from[self.index(from.len())]
    }

    pub fn byte(&mut self) -> u8 {
        self.u64() as u8
    }

    /// A byte that is not 0.
    pub fn set_byte(&mut self) -> u8 {
        self.below(255) as u8 + 1
    }

    /// A number from `least` to `greatest`, both included, drawn to the edges.
    pub fn between(&mut self, least: i64, greatest: i64) -> i64 {
        let width = (greatest - least) as u64 + 1;
        match self.below(4) {
            0 => least,
            1 => greatest,
            _ => least + self.below(width) as i64,
        }
    }

    pub fn fill(&mut self, bytes: &mut [u8]) {
        for part in bytes.chunks_mut(8) {
            part.copy_from_slice(&self.u64().to_le_bytes()[..part.len()]);
        }
    }

    pub fn bytes(&mut self, length: usize) -> Vec<u8> {
        let mut bytes = vec![0; length];
        self.fill(&mut bytes);
        bytes
    }
}

// ---- Fields of a record ---------------------------------------------------------------------------------------------

fn put(bytes: &mut [u8], at: usize, field: &[u8]) {
    bytes[at..at + field.len()].copy_from_slice(field);
}

fn u32_at(bytes: &[u8], at: usize) -> u32 {
    u32::from_le_bytes(bytes[at..at + 4].try_into().unwrap())
}

pub fn function_id(record: &[u8]) -> u32 {
    u32_at(record, 0)
}

fn range_count(record: &[u8]) -> usize {
    usize::from(record[10]).min(8)
}

fn information_length(record: &[u8]) -> usize {
    (u32_at(record, 200) as usize).min(52)
}

fn range_at(record: &[u8], index: usize) -> Range {
    let place = &record[72 + 16 * index..88 + 16 * index];
    Range {
        first: u64::from_le_bytes(place[..8].try_into().unwrap()),
        pages: u32_at(place, 8),
        attributes: u16::from_le_bytes([place[12], place[13]]),
        id: u16::from_le_bytes([place[14], place[15]]),
    }
}

fn range_bytes(range: &Range) -> [u8; 16] {
    let mut bytes = [0; 16];
    put(&mut bytes, 0, &range.first.to_le_bytes());
    put(&mut bytes, 8, &range.pages.to_le_bytes());
    put(&mut bytes, 12, &range.attributes.to_le_bytes());
    put(&mut bytes, 14, &range.id.to_le_bytes());
    bytes
}

/// The least and the greatest offset/4096 with which every range of the record stays from page 0 to 2^52. For a spoiled
/// record the bounds mean nothing, but they are numbers.
fn shift_bounds(record: &[u8]) -> (i64, i64) {
    let mut bounds = (LEAST_SHIFT, GREATEST_SHIFT);
    for index in 0..range_count(record) {
        let range = range_at(record, index);
        let first = range.first.min(END_OF_PAGES) as i64;
        let room = (END_OF_PAGES as i64 - first - i64::from(range.pages)).max(0);
        bounds = (bounds.0.max(-first), bounds.1.min(room));
    }
    bounds
}

// ---- Valid tables ---------------------------------------------------------------------------------------------------

/// FUNCTION_IDs that are often alike in the requester and differ in the segment or its valid bit.
fn any_function_id(rng: &mut Rng) -> u32 {
    let requester = match rng.below(4) {
        0 => rng.u64() as u16,
        1 => 0x0101,
        2 => rng.pick(&[0, 0xFFFF]),
        _ => 0x0100,
    };
    if rng.once_in(2) {
        return requester.into();
    }
    let segment = if rng.once_in(2) { rng.byte() } else { rng.pick(&[0, 1, 0xFF]) };
    0x0100_0000 | u32::from(segment) << 16 | u32::from(requester)
}

/// A range that keeps its rules. `least_id` is the least BAR number that may still come.
fn valid_range(rng: &mut Rng, least_id: &mut u16, central: bool) -> Range {
    let pages = match rng.below(4) {
        0 => 1,
        1 => rng.pick(&[2, 0x1000, u32::MAX]),
        _ => (rng.u64() as u32).max(1) >> rng.below(32),
    }
    .max(1);
    let last_first = END_OF_PAGES - u64::from(pages);
    // Central ranges leave room for offsets of both signs.
    let first = match rng.below(if central { 2 } else { 6 }) {
        0 => END_OF_PAGES / 4 + rng.below(END_OF_PAGES / 2),
        1 => 16 + rng.below(0x1_0000),
        2 => 0,
        3 => last_first,
        4 => last_first - rng.below(4),
        _ => rng.below(last_first + 1),
    };
    let id = if rng.once_in(3) {
        rng.pick(&[8, 9, 0xFFFF, rng.0 as u16 | 8])
    } else {
        *least_id + rng.below(u64::from(8 - *least_id)) as u16
    };
    if id < 8 {
        *least_id = id;
    }
    Range { first, pages, attributes: rng.below(16) as u16, id }
}

/// A count from 0 to `most`, drawn to the edges.
fn count(rng: &mut Rng, most: u64) -> usize {
    match rng.below(4) {
        0 => most as usize,
        1 => rng.pick(&[0, 1, most - 1]) as usize,
        _ => rng.below(most + 1) as usize,
    }
}

/// Numbers of streams and sessions that often meet.
fn low_number(rng: &mut Rng) -> u8 {
    if rng.once_in(8) { rng.byte() } else { rng.below(4) as u8 }
}

/// A record that keeps its rules.
fn valid_record(rng: &mut Rng, function_id: u32, state: u8, ranges: usize) -> [u8; RECORD] {
    let mut record = [0; RECORD];
    put(&mut record, 0, &function_id.to_le_bytes());
    record[4] = state;
    record[10] = ranges as u8;
    put(&mut record, 12, &(rng.u64() as u16 & 0x001E).to_le_bytes());
    // MSI-X and LNR control, then TPH control: any value.
    rng.fill(&mut record[14..18]);
    rng.fill(&mut record[20..24]);
    let central = rng.once_in(2);
    let mut least_id = 0;
    for index in 0..ranges {
        let range = valid_range(rng, &mut least_id, central);
        put(&mut record, 72 + 16 * index, &range_bytes(&range));
    }
    let l = count(rng, 52);
    record[200] = l as u8;
    rng.fill(&mut record[204..204 + l]);
    if state == 1 || state == 2 {
        record[6] = rng.pick(&[0, 1, 4, 5]);
        record[8] = low_number(rng);
        record[9] = low_number(rng);
        let (least, greatest) = shift_bounds(&record);
        let offset = if rng.once_in(4) { 0 } else { rng.between(least, greatest) * 4096 };
        put(&mut record, 24, &offset.to_le_bytes());
    }
    if state == 1 {
        record[5] = 1;
        // A nonce of zeros is one like any other.
        if !rng.once_in(16) {
            rng.fill(&mut record[40..72]);
        }
    }
    record
}

/// A table that keeps all rules, of that many records, their states drawn from `states`.
pub fn valid_table_in(rng: &mut Rng, records: usize, states: &[u8]) -> Vec<u8> {
    let mut ids: Vec<u32> = Vec::new();
    let mut table = Vec::new();
    while ids.len() < records {
        let id = any_function_id(rng);
        if !ids.contains(&id) {
            ids.push(id);
            let state = rng.pick(states);
            let ranges = count(rng, 8);
            table.extend(valid_record(rng, id, state, ranges));
        }
    }
    table
}

pub fn valid_table(rng: &mut Rng, records: usize) -> Vec<u8> {
    valid_table_in(rng, records, &[0, 1, 1, 2, 3])
}

/// A full table: 64 records with eight ranges each and 52 bytes of information, all in that state. For the benchmark.
pub fn full_table(rng: &mut Rng, state: u8) -> Vec<u8> {
    let mut table = Vec::new();
    for index in 0..64 {
        let mut record = valid_record(rng, 0x0100 + index, state, 8);
        record[200] = 52;
        rng.fill(&mut record[204..256]);
        table.extend(record);
    }
    table
}

/// A table of one to three records and the place of one in CONFIG_UNLOCKED whose report has that total, 20 to 200.
pub fn table_reporting(rng: &mut Rng, total: usize) -> (Vec<u8>, usize) {
    let records = 1 + rng.index(3);
    let mut table = valid_table(rng, records);
    let place = RECORD * rng.index(records);
    // 20 + 16N + L is the total: at most 52 bytes of it are information.
    let counted = total - 20;
    let (least, most) = (counted.saturating_sub(52).div_ceil(16), (counted / 16).min(8));
    let n = least + rng.index(most - least + 1);
    let l = counted - 16 * n;
    let mut record = valid_record(rng, function_id(&table[place..]), 0, n);
    record[200] = l as u8;
    record[204..].fill(0);
    rng.fill(&mut record[204..204 + l]);
    put(&mut table, place, &record);
    (table, place)
}

/// The FUNCTION_ID in another way that means the same: bits 31:25 and a segment that is not marked valid are ignored.
pub fn alias(rng: &mut Rng, function_id: u32) -> u32 {
    let ignored = if function_id & 0x0100_0000 == 0 { 0xFEFF_0000 } else { 0xFE00_0000 };
    function_id ^ (rng.u64() as u32 & ignored)
}

// ---- Spoiled tables -------------------------------------------------------------------------------------------------

/// Breaks one rule of 01 in one place and gives the number that 01 gives for it.
pub fn spoil(rng: &mut Rng, table: &mut Vec<u8>) -> u32 {
    match rng.below(24) {
        0 => spoil_length(rng, table),
        1 if table.len() > RECORD => spoil_identity(rng, table),
        _ => {
            let at = rng.index(table.len() / RECORD) * RECORD;
            let record = &mut table[at..at + RECORD];
            while !spoil_record(rng, record) {}
            2
        }
    }
}

/// Number 1: no records, too many, or not whole ones.
fn spoil_length(rng: &mut Rng, table: &mut Vec<u8>) -> u32 {
    let records = table.len() / RECORD;
    let length = match rng.below(4) {
        0 => rng.pick(&[0, 1, 255]),
        1 => RECORD * rng.pick(&[65, 66, 128]),
        2 => RECORD * records - 1 - rng.index(255),
        _ => RECORD * records + 1 + rng.index(255),
    };
    table.resize(length, 0);
    1
}

/// Number 3: one record's FUNCTION_ID stands in another, too.
fn spoil_identity(rng: &mut Rng, table: &mut [u8]) -> u32 {
    let records = table.len() / RECORD;
    let from = rng.index(records);
    let to = (from + 1 + rng.index(records - 1)) % records;
    table.copy_within(from * RECORD..from * RECORD + 4, to * RECORD);
    3
}

/// Tries one way to break a rule; false, with nothing changed, if it does not apply to this record.
fn spoil_record(rng: &mut Rng, record: &mut [u8]) -> bool {
    let way = rng.below(20);
    match way {
        0..=6 => spoil_single_field(rng, record, way),
        7..=11 => spoil_state_field(rng, record, way),
        _ => spoil_counted_part(rng, record, way),
    }
}

fn spoil_single_field(rng: &mut Rng, record: &mut [u8], way: u64) -> bool {
    match way {
        // FUNCTION_ID 31:25
        0 => record[3] |= 2 << rng.below(7),
        // a segment without its valid bit
        1 => {
            record[3] &= !1;
            record[2] = rng.set_byte();
        }
        2 => record[4] = 4 + rng.below(252) as u8,
        3 => record[5] = 2 + rng.below(254) as u8,
        // held exactly in CONFIG_LOCKED
        4 => record[5] ^= 1,
        // unused bytes
        5 => record[rng.pick(&[11, 18, 19, 32, 33, 34, 35, 36, 37, 38, 39])] = rng.set_byte(),
        // INTERFACE_INFO bits 1 to 4 only
        _ => {
            let bit = rng.pick(&[0, 5, 6, 7, 8, 9, 10, 11, 12, 13, 14, 15]);
            record[12 + bit / 8] |= 1 << (bit % 8);
        }
    }
    true
}

/// Rules that go by the state: nonce, lock fields, offset.
fn spoil_state_field(rng: &mut Rng, record: &mut [u8], way: u64) -> bool {
    let locked = record[4] == 1 || record[4] == 2;
    let (least, greatest) = shift_bounds(record);
    match way {
        7 if record[4] != 1 => record[40 + rng.index(32)] = rng.set_byte(),
        8 if !locked => record[rng.pick(&[6, 7, 8, 9, 24, 25, 26, 27, 28, 29, 30, 31])] = rng.set_byte(),
        9 if locked => {
            let bit = rng.pick(&[1, 3, 4, 5, 6, 7, 8, 9, 10, 11, 12, 13, 14, 15]);
            record[6 + bit / 8] |= 1 << (bit % 8);
        }
        // not a multiple of 4096
        10 if locked => {
            let bit = rng.index(12);
            record[24 + bit / 8] |= 1 << (bit % 8);
        }
        // one page too low or too high
        11 if locked && rng.once_in(2) && least > LEAST_SHIFT => put(record, 24, &((least - 1) * 4096).to_le_bytes()),
        11 if locked && greatest < GREATEST_SHIFT => put(record, 24, &((greatest + 1) * 4096).to_le_bytes()),
        _ => return false,
    }
    true
}

/// Ranges and information: their counts, their rules, the unused places behind them.
fn spoil_counted_part(rng: &mut Rng, record: &mut [u8], way: u64) -> bool {
    let n = range_count(record);
    let l = information_length(record);
    let range = 72 + 16 * rng.index(n.max(1));
    match way {
        12 => record[10] = 9 + rng.below(247) as u8,
        13 => {
            let length = rng.pick(&[53, 54, 255, 256, 1 << 16, 1 << 24, 1 << 31, u32::MAX, 53 + rng.0 as u32 % 9999]);
            put(record, 200, &length.to_le_bytes());
        }
        14 if n < 8 => record[72 + 16 * n + rng.index(128 - 16 * n)] = rng.set_byte(),
        15 if l < 52 => record[204 + l + rng.index(52 - l)] = rng.set_byte(),
        16 if n > 0 => put(record, range + 8, &[0; 4]),
        // first + pages one above 2^52, far above, or so large that 64 bits wrap to little
        17 if n > 0 => {
            let pages = u64::from(u32_at(record, range + 8));
            let first = rng.pick(&[END_OF_PAGES - pages + 1, END_OF_PAGES, 1 << 63, u64::MAX, 0u64.wrapping_sub(pages)]);
            put(record, range, &first.to_le_bytes());
        }
        18 if n > 0 => {
            let bit = 4 + rng.index(12);
            record[range + 12 + bit / 8] |= 1 << (bit % 8);
        }
        19 => return spoil_ids(rng, record),
        _ => return false,
    }
    true
}

/// Gives a range an ID below that of an earlier BAR.
fn spoil_ids(rng: &mut Rng, record: &mut [u8]) -> bool {
    let n = range_count(record);
    let later = rng.index(n.max(1));
    let mut bars = (0..later.min(n)).map(|index| range_at(record, index).id).filter(|id| (1..8).contains(id));
    let Some(last_bar) = bars.next_back() else { return false };
    let id = rng.below(last_bar.into()) as u16;
    put(record, 72 + 16 * later + 14, &id.to_le_bytes());
    true
}

/// Changes one byte or a few anywhere: the table may or may not keep its rules.
pub fn scratch(rng: &mut Rng, table: &mut [u8]) {
    for _ in 0..rng.pick(&[1, 1, 1, 2, 3, 20]) {
        if !table.is_empty() {
            let at = rng.index(table.len());
            table[at] = if rng.once_in(2) { table[at] ^ 1 << rng.below(8) } else { rng.byte() };
        }
    }
}

/// Bytes of no plan, also in whole records, also mostly zeros.
pub fn wild_table(rng: &mut Rng) -> Vec<u8> {
    let length = match rng.below(4) {
        0 => rng.index(600),
        _ => RECORD * rng.pick(&[1, 1, 1, 2, 3]),
    };
    let mut table = rng.bytes(length);
    if rng.once_in(2) {
        table.fill(0);
        scratch(rng, &mut table);
    }
    table
}

// ---- Requests and calls ---------------------------------------------------------------------------------------------

/// An identity for a call: mostly that of the record, written in one of its ways, or one that is close to it.
fn named(rng: &mut Rng, record: Option<&[u8]>) -> u32 {
    let Some(record) = record else { return any_function_id(rng) };
    let id = function_id(record);
    match rng.below(24) {
        0 => any_function_id(rng),
        1 => id ^ 0x0100_0000,
        2 => id ^ 1 << rng.below(16),
        // Another segment: another identity if the segment is valid, else the same.
        3 | 4 => id ^ 1 << (16 + rng.below(8)),
        // "Incoming reserved bits are ignored."
        5 | 6 => id ^ (rng.u64() as u32 & 0xFE00_0000),
        _ => id,
    }
}

/// An offset near the edges of the record's ranges.
fn lock_offset(rng: &mut Rng, record: Option<&[u8]>) -> i64 {
    let (least, greatest) = record.map_or((0, 0), shift_bounds);
    let page = |shift: i64| shift.wrapping_mul(4096);
    match rng.below(16) {
        0 => rng.pick(&[1, -1, 4095, 4097, -4095, i64::MIN, i64::MIN + 1, i64::MIN + 4096, i64::MAX, i64::MAX - 4095]),
        1 => rng.u64() as i64,
        2 => page(least).wrapping_sub(1),
        3 => page(greatest) | rng.below(4096) as i64,
        4 => page(least - 1),
        5 => page(greatest + 1),
        6 => rng.pick(&[4096, -4096]),
        7 | 8 => 0,
        _ => page(rng.between(least, greatest)),
    }
}

fn lock_payload(rng: &mut Rng, record: Option<&[u8]>) -> Vec<u8> {
    // Supported flags, sometimes any of bits 4:0; bits 15:5 are ignored.
    let flags = if rng.once_in(8) { rng.below(32) as u16 } else { rng.pick(&[0, 1, 4, 5]) };
    let ignored = if rng.once_in(2) { rng.u64() as u16 & 0xFFE0 } else { 0 };
    let mut payload = rng.bytes(20);
    put(&mut payload, 0, &(flags | ignored).to_le_bytes());
    payload[2] = low_number(rng);
    put(&mut payload, 4, &lock_offset(rng, record).to_le_bytes());
    payload
}

fn report_payload(rng: &mut Rng, record: Option<&[u8]>) -> Vec<u8> {
    let total = record.map_or(20, |record| 20 + 16 * range_count(record) + information_length(record)) as u16;
    let offset = match rng.below(4) {
        0 => 0,
        1 => rng.pick(&[1, 71, 72, 127, 128, 199, 200, 201, u16::MAX]),
        2 => rng.pick(&[total - 1, total, total + 1, total - 20]),
        _ => rng.below(total.into()) as u16,
    };
    let left = total.saturating_sub(offset);
    let length = match rng.below(4) {
        0 => rng.pick(&[0, 1, 2, 127, 128, 129, 200]),
        1 => rng.pick(&[left, left + 1, left.saturating_sub(1)]),
        2 => rng.below(256) as u16,
        _ => u16::MAX,
    };
    [offset.to_le_bytes(), length.to_le_bytes()].concat()
}

fn start_payload(rng: &mut Rng, record: Option<&[u8]>) -> Vec<u8> {
    let mut nonce = record.map_or(vec![0; 32], |record| record[40..72].to_vec());
    match rng.below(8) {
        0 => nonce[rng.index(32)] ^= 1 << rng.below(8),
        1 => rng.fill(&mut nonce),
        _ => {}
    }
    nonce
}

/// A request near a rule's edge, mostly for an interface of the table.
pub fn request(rng: &mut Rng, table: &[u8]) -> Vec<u8> {
    let records: Vec<&[u8]> = table.chunks_exact(RECORD).collect();
    let record = if records.is_empty() { None } else { Some(rng.pick(&records)) };
    let kind = match rng.below(24) {
        0 => rng.byte(),
        1 => rng.pick(&[0x00, 0x01, 0x07, 0x7F, 0x80, 0x88, 0x8B, 0xFF]),
        2..12 => rng.pick(&[0x81, 0x82, 0x83, 0x84, 0x85, 0x86, 0x87]),
        // What the record's state makes legal.
        _ => match record.map(|record| record[4]) {
            Some(0) => 0x83,
            Some(1) => rng.pick(&[0x84, 0x84, 0x86]),
            _ => rng.pick(&[0x81, 0x82, 0x85, 0x85, 0x87]),
        },
    };
    let version = if rng.once_in(32) { rng.pick(&[0x00, 0x0F, 0x11, 0x20, 0x90, 0x12]) } else { 0x10 };
    // Reserved bytes are ignored, so they may hold anything.
    let mut request = if rng.once_in(2) { rng.bytes(16) } else { vec![0; 16] };
    put(&mut request, 0, &[version, kind]);
    put(&mut request, 4, &named(rng, record).to_le_bytes());
    match kind {
        0x82 => request.extend(rng.bytes(4)),
        0x83 => request.extend(lock_payload(rng, record)),
        0x84 => request.extend(report_payload(rng, record)),
        0x86 => request.extend(start_payload(rng, record)),
        _ => {}
    }
    if rng.once_in(16) {
        let exact = request.len();
        let length = match rng.below(3) {
            0 => rng.pick(&[exact - 1, exact + 1]),
            1 => rng.pick(&[0, 1, 4, 8, 15, 16, 17, 20, 36, 48, 255, 256, 257]),
            _ => rng.index(64),
        };
        let more = rng.bytes(length.saturating_sub(exact));
        request.extend(more);
        request.truncate(length);
    }
    request
}

/// `right` as a length, sometimes a wrong one.
fn length_near(rng: &mut Rng, right: usize) -> usize {
    match rng.below(64) {
        0 => rng.pick(&[0, 1, 15, 16, 31, 33, 64, 255, 256, 257]),
        1 => rng.pick(&[right - 1, right + 1]),
        _ => right,
    }
}

/// A stream map in which the request's stream is mostly secure, sometimes as the only one, sometimes as the only one that is not.
fn stream_map(rng: &mut Rng, request: &[u8]) -> Vec<u8> {
    let stream = usize::from(request.get(18).copied().unwrap_or_default());
    let length = length_near(rng, 32);
    let mut map = rng.bytes(length);
    let wish = rng.below(16);
    match wish {
        0 | 1 => map.fill(0),
        2 => map.fill(0xFF),
        _ => {}
    }
    if let Some(byte) = map.get_mut(stream / 8) {
        match wish {
            1 | 3.. => *byte |= 1 << (stream % 8),
            2 => *byte &= !(1 << (stream % 8)),
            _ => {}
        }
    }
    map
}

/// A request with all that it is lent.
pub fn respond_call(rng: &mut Rng, table: &[u8]) -> Call {
    let request = request(rng, table);
    let reply_length = match rng.below(32) {
        0 => length_near(rng, 256),
        1 => rng.pick(&[0, 15, 16, 24, 48, 147, 148, 255]),
        2 => rng.pick(&[257, 300, 512]),
        _ => 256,
    };
    let reply = rng.bytes(reply_length);
    let nonce_length = length_near(rng, 32);
    let nonce = if rng.once_in(16) { vec![0; nonce_length] } else { rng.bytes(nonce_length) };
    let streams = stream_map(rng, &request);
    let session = Session(low_number(rng));
    Call::Respond { request, reply, nonce, ready: !rng.once_in(8), streams, session }
}

/// The request with right buffers: a reply buffer of 256 bytes, a nonce that is ready, all streams secure.
pub fn lent(rng: &mut Rng, request: Vec<u8>) -> Call {
    let (reply, nonce, session) = (rng.bytes(256), rng.bytes(32), Session(low_number(rng)));
    Call::Respond { request, reply, nonce, ready: true, streams: vec![0xFF; 32], session }
}

/// A lock request that is accepted, of a record in CONFIG_UNLOCKED.
pub fn good_lock(rng: &mut Rng, record: &[u8]) -> Vec<u8> {
    let mut payload = rng.bytes(20);
    put(&mut payload, 0, &u16::to_le_bytes(rng.pick(&[0, 1, 4, 5])));
    payload[2] = low_number(rng);
    let (least, greatest) = shift_bounds(record);
    put(&mut payload, 4, &(rng.between(least, greatest) * 4096).to_le_bytes());
    let id = alias(rng, function_id(record)).to_le_bytes();
    [&[0x10, 0x83, 0, 0][..], &id, &[0; 8], &payload].concat()
}

pub fn register_call(rng: &mut Rng, table: &[u8]) -> Call {
    let records: Vec<&[u8]> = table.chunks_exact(RECORD).collect();
    let record = if records.is_empty() { None } else { Some(rng.pick(&records)) };
    let class = if rng.once_in(8) { rng.byte() } else { rng.below(20) as u8 };
    Call::RegisterWrite { function_id: FunctionId(named(rng, record)), class }
}

/// Any call. `calm` leaves device-wide events and ERROR classes rare, so that interfaces of a history get as far as RUN.
pub fn call(rng: &mut Rng, table: &[u8], calm: bool) -> Call {
    match rng.below(if calm { 100 } else { 20 }) {
        0 => Call::Multicast,
        1 => Call::StreamDown(Stream(low_number(rng))),
        2 => Call::SessionEnd(Session(low_number(rng))),
        3 | 4 => Call::Firmware,
        5..=8 => register_call(rng, table),
        _ => respond_call(rng, table),
    }
}

/// A request of no plan, with buffers of any length.
pub fn wild_call(rng: &mut Rng) -> Call {
    match rng.below(12) {
        0 => Call::RegisterWrite { function_id: FunctionId(rng.u64() as u32), class: rng.byte() },
        1 => Call::StreamDown(Stream(rng.byte())),
        2 => Call::SessionEnd(Session(rng.byte())),
        3 => Call::Multicast,
        4 => Call::Firmware,
        _ => {
            let mut lengths = [64, 512, 64, 64].map(|end| rng.index(end));
            // Often all lengths but one are right, so that the bytes are looked at.
            if !rng.once_in(4) {
                let right = [lengths[0].max(16), 256, 32, 32];
                let kept = rng.index(8);
                for (index, length) in lengths.iter_mut().enumerate() {
                    *length = if index == kept { *length } else { right[index] };
                }
            }
            let [request, reply, nonce, streams] = lengths.map(|length| rng.bytes(length));
            Call::Respond { request, reply, nonce, ready: rng.once_in(2), streams, session: Session(rng.byte()) }
        }
    }
}

// ---- Reports --------------------------------------------------------------------------------------------------------

/// Fields that the writer takes; the number and the places past N and L, which it does not read, hold anything.
pub fn valid_fields(rng: &mut Rng) -> Report {
    let n = count(rng, 8);
    let l = count(rng, 52);
    let mut fields = Report {
        number: rng.u64() as u32,
        info: rng.u64() as u16 & 0x001F,
        msix: rng.u64() as u16,
        lnr: rng.u64() as u16,
        tph: rng.u64() as u32,
        n: n as u32,
        l: l as u32,
        ..Report::ZERO
    };
    let mut least_id = 0;
    for (index, range) in fields.ranges.iter_mut().enumerate() {
        *range = if index < n {
            valid_range(rng, &mut least_id, false)
        } else {
            Range { first: rng.u64(), pages: rng.u64() as u32, attributes: rng.u64() as u16, id: rng.u64() as u16 }
        };
    }
    rng.fill(&mut fields.information);
    fields
}

/// Puts one field, or a few, at or over an edge.
pub fn spoil_fields(rng: &mut Rng, fields: &mut Report) {
    for _ in 0..rng.pick(&[1, 1, 1, 2, 3]) {
        let range = rng.index(8);
        let range = &mut fields.ranges[range];
        match rng.below(10) {
            0 => fields.n = rng.pick(&[0, 7, 8, 9, 16, 255, 256, 1 << 31, u32::MAX, fields.n.wrapping_add(1)]),
            1 => fields.l = rng.pick(&[0, 51, 52, 53, 255, 256, 1 << 31, u32::MAX, fields.l.wrapping_add(1)]),
            2 => fields.info ^= 1 << rng.below(16),
            3 => range.attributes ^= 1 << rng.below(16),
            4 => range.pages = rng.pick(&[0, 1, u32::MAX]),
            5 => range.first = (END_OF_PAGES + 1).wrapping_sub(range.pages.into()),
            6 => range.first = END_OF_PAGES.wrapping_sub(range.pages.into()),
            7 => range.first = rng.pick(&[0, END_OF_PAGES, u64::MAX, 0u64.wrapping_sub(range.pages.into())]),
            _ => range.id = rng.below(10) as u16,
        }
    }
}

/// The report of these fields as 01 lays it out, whatever they hold; N and L are taken to be at most 8 and 52.
pub fn report_bytes(fields: &Report) -> Vec<u8> {
    let mut bytes = Vec::new();
    bytes.extend(fields.info.to_le_bytes());
    bytes.extend([0, 0]);
    bytes.extend(fields.msix.to_le_bytes());
    bytes.extend(fields.lnr.to_le_bytes());
    bytes.extend(fields.tph.to_le_bytes());
    bytes.extend(fields.n.to_le_bytes());
    for range in fields.ranges.iter().take(fields.n as usize) {
        bytes.extend(range_bytes(range));
    }
    bytes.extend(fields.l.to_le_bytes());
    bytes.extend(fields.information.iter().take(fields.l as usize));
    bytes
}

/// The fields that a record in CONFIG_UNLOCKED reports once this request has locked it. "INTERFACE_INFO with bit 0 from
/// NO_FW_UPDATE, ... MSI-X control (0 unless LOCK_MSIX), ... N ranges with shifted first page, ... Attribute bits 0 and 1 are
/// cleared unless LOCK_MSIX."
pub fn reported(record: &[u8], lock: &[u8]) -> Report {
    let u16_at = |at: usize| u16::from_le_bytes([record[at], record[at + 1]]);
    let shift = i64::from_le_bytes(lock[20..28].try_into().unwrap()) / 4096;
    let (no_fw_update, lock_msix) = (lock[16] & 1, lock[16] & 4 != 0);
    let (n, l) = (range_count(record), information_length(record));
    let mut fields = Report {
        info: u16_at(12) | u16::from(no_fw_update),
        msix: if lock_msix { u16_at(14) } else { 0 },
        lnr: u16_at(16),
        tph: u32_at(record, 20),
        n: n as u32,
        l: l as u32,
        ..Report::ZERO
    };
    for (index, range) in fields.ranges.iter_mut().enumerate().take(n) {
        *range = range_at(record, index);
        range.first = (range.first as i64 + shift) as u64;
        range.attributes &= if lock_msix { 0x000F } else { 0x000C };
    }
    put(&mut fields.information, 0, &record[204..204 + l]);
    fields
}

/// A report to read: whole, cut or lengthened, with a field over its edge, scratched, or of no plan.
pub fn report(rng: &mut Rng) -> Vec<u8> {
    let mut fields = valid_fields(rng);
    let way = rng.below(8);
    if way == 1 || way == 2 {
        spoil_fields(rng, &mut fields);
    }
    let mut bytes = report_bytes(&fields);
    match way {
        3 => bytes.truncate(rng.index(bytes.len() + 1)),
        4 => {
            let more = 1 + rng.index(80);
            bytes.extend(rng.bytes(more));
        }
        5 => scratch(rng, &mut bytes),
        6 => bytes[rng.pick(&[2, 3])] = rng.byte(),
        7 => bytes = any_report(rng),
        _ => {}
    }
    bytes
}

/// Bytes of no plan, often zeros but for a few.
fn any_report(rng: &mut Rng) -> Vec<u8> {
    let length = rng.pick(&[0, 19, 20, 21, 36, 200, 201, 256, rng.0 as usize % 257]);
    let mut bytes = rng.bytes(length);
    if rng.once_in(2) {
        bytes.fill(0);
        scratch(rng, &mut bytes);
    }
    bytes
}
