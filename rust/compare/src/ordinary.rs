//! An ordinary TDISP responder, written by hand from the papers 01 and 02, and for their open points from docs/DECISIONS.md,
//! without a look at the proved code: that one's partner in tests, and the baseline of the benchmark. Words in quotes are 01's,
//! or 02's where its request is named.
//!
//! A call first judges everything that it was lent, then writes. The judging functions return a `Result`, so a refusal leaves
//! every buffer as it was.

use tdisp::{Answer, FunctionId, Moved, Range, Report, Session, Stream, Yes};

// ---- The table ------------------------------------------------------------------------------------------------------

/// "Records of one fixed size, 256 bytes, no header; 1 to 64 records."
const RECORD: usize = 256;
const MOST_RECORDS: usize = 64;
type Record = [u8; RECORD];

// Where a record's fields stand.
const FUNCTION_ID: usize = 0;
const STATE: usize = 4;
const HELD: usize = 5;
const FLAGS: usize = 6;
const STREAM: usize = 8;
const SESSION: usize = 9;
const RANGE_COUNT: usize = 10;
const INFO: usize = 12;
const MSIX: usize = 14;
const LNR: usize = 16;
const TPH: usize = 20;
const OFFSET: usize = 24;
const NONCE: usize = 40;
const RANGES: usize = 72;
const INFORMATION_LENGTH: usize = 200;
const INFORMATION: usize = 204;

// "state: 0 CONFIG_UNLOCKED, 1 CONFIG_LOCKED, 2 RUN, 3 ERROR"
const CONFIG_UNLOCKED: u8 = 0;
const CONFIG_LOCKED: u8 = 1;
const RUN: u8 = 2;
const ERROR: u8 = 3;

// FUNCTION_ID: "bits 15:0 requester, 23:16 segment, 24 segment valid, 31:25 zero"
const REQUESTER: u32 = 0x0000_FFFF;
const SEGMENT: u32 = 0x00FF_0000;
const SEGMENT_VALID: u32 = 0x0100_0000;
const FUNCTION_ID_ZERO: u32 = 0xFE00_0000;

// Lock flags. "Bits 0 NO_FW_UPDATE and 2 LOCK_MSIX are supported; any of 1, 3, 4 set is 01h; 15:5 ... are ignored."
const NO_FW_UPDATE: u16 = 1 << 0;
const LOCK_MSIX: u16 = 1 << 2;
const SUPPORTED_FLAGS: u16 = NO_FW_UPDATE | LOCK_MSIX;
const REFUSED_FLAGS: u16 = 1 << 1 | 1 << 3 | 1 << 4;

/// INTERFACE_INFO of a record: "bits 1 to 4 only".
const RECORD_INFO: u16 = 0x001E;
/// INTERFACE_INFO of a report: bits 15:5 are reserved.
const REPORT_INFO: u16 = 0x001F;
/// "attribute bits 15:4 are zero"
const ATTRIBUTES: u16 = 0x000F;
/// Attribute bits 0 and 1 mark the MSI-X table and its PBA.
const MSIX_ATTRIBUTES: u16 = 0x0003;

const MOST_RANGES: usize = 8;
const MOST_INFORMATION: usize = 52;
const PAGE: i64 = 4096;
/// "first + pages is at most 2^52"
const END_OF_PAGES: u64 = 1 << 52;

// ---- What a call gets -----------------------------------------------------------------------------------------------

/// Why a call is not served. "The lowest number that applies wins": the calls below ask in this order.
#[derive(Clone, Copy)]
enum Refusal {
    TableLength = 1,
    RecordRules = 2,
    EqualFunctionIds = 3,
    ShortReplyBuffer = 4,
    ShortRequest = 5,
    StreamsOrNonceLength = 6,
    NoSuchInterface = 7,
}

/// "Beside any refusal number the length or count is 0".
fn answer(served: Result<usize, Refusal>) -> Answer {
    match served {
        Ok(length) => Answer { number: 0, length: length as u32 },
        Err(refusal) => Answer { number: refusal as u32, length: 0 },
    }
}

fn moved(served: Result<u32, Refusal>) -> Moved {
    match served {
        Ok(count) => Moved { number: 0, count },
        Err(refusal) => Moved { number: refusal as u32, count: 0 },
    }
}

/// A request: the reply at the front of `reply`, its length returned, the named record of `table` as 01 says.
pub fn respond(
    request: &[u8],
    reply: &mut [u8],
    table: &mut [u8],
    nonce: &[u8],
    ready: bool,
    streams: &[u8],
    session: Session,
) -> Answer {
    answer(serve(request, reply, table, nonce, ready, streams, session))
}

/// A register write of the class, naming an interface.
pub fn register_write(table: &mut [u8], function_id: FunctionId, class: u8) -> Moved {
    moved(accepted(table).and_then(|records| written(records, function_id, class)))
}

/// The stream is no longer secure: interfaces with that default stream go to ERROR.
pub fn stream_down(table: &mut [u8], stream: Stream) -> Moved {
    moved(accepted(table).map(|records| move_all(records, |record| record[STREAM] == stream.0)))
}

/// The session has ended: interfaces with that session number go to ERROR.
pub fn session_end(table: &mut [u8], session: Session) -> Moved {
    moved(accepted(table).map(|records| move_all(records, |record| record[SESSION] == session.0)))
}

/// A multicast change: all interfaces go to ERROR.
pub fn multicast(table: &mut [u8]) -> Moved {
    moved(accepted(table).map(|records| move_all(records, |_| true)))
}

/// "The firmware question is yes exactly if no interface in state 1 or 2 holds NO_FW_UPDATE". A refusal's answer is no.
pub fn firmware(table: &[u8]) -> Yes {
    match records_of(table).and_then(|records| judge(records).map(|()| records)) {
        Ok(records) => {
            let forbids = |record: &Record| can_move(record) && flags(record) & NO_FW_UPDATE != 0;
            Yes { number: 0, yes: u32::from(!records.iter().any(forbids)) }
        }
        Err(refusal) => Yes { number: refusal as u32, yes: 0 },
    }
}

// ---- Numbers, low byte first ----------------------------------------------------------------------------------------

fn bytes_at<const N: usize>(bytes: &[u8], at: usize) -> [u8; N] {
    let mut out = [0; N];
    out.copy_from_slice(&bytes[at..at + N]);
    out
}

pub(crate) fn u16_at(bytes: &[u8], at: usize) -> u16 {
    u16::from_le_bytes(bytes_at(bytes, at))
}

pub(crate) fn u32_at(bytes: &[u8], at: usize) -> u32 {
    u32::from_le_bytes(bytes_at(bytes, at))
}

fn u64_at(bytes: &[u8], at: usize) -> u64 {
    u64::from_le_bytes(bytes_at(bytes, at))
}

/// "The offset is a signed 64-bit number and may be below zero."
fn i64_at(bytes: &[u8], at: usize) -> i64 {
    i64::from_le_bytes(bytes_at(bytes, at))
}

/// Writes the field at `at` and returns the place after it.
fn put<const N: usize>(out: &mut [u8], at: usize, field: [u8; N]) -> usize {
    out[at..at + N].copy_from_slice(&field);
    at + N
}

// ---- Whether a table is accepted ------------------------------------------------------------------------------------

/// The table's records if it is accepted: numbers 1, 2 and 3.
fn accepted(table: &mut [u8]) -> Result<&mut [Record], Refusal> {
    records_of(table).and_then(judge)?;
    Ok(table.as_chunks_mut().0)
}

/// "table length is not 256 to 16,384 in steps of 256"
fn records_of(table: &[u8]) -> Result<&[Record], Refusal> {
    let (records, rest) = table.as_chunks();
    if rest.is_empty() && (1..=MOST_RECORDS).contains(&records.len()) { Ok(records) } else { Err(Refusal::TableLength) }
}

fn judge(records: &[Record]) -> Result<(), Refusal> {
    if !records.iter().all(record_ok) {
        return Err(Refusal::RecordRules);
    }
    if !all_differ(records) {
        return Err(Refusal::EqualFunctionIds);
    }
    Ok(())
}

/// "No two records have equal FUNCTION_ID." A bitmap of hashes tells most of them apart at once; one that meets a bit already
/// set is compared with all before it.
fn all_differ(records: &[Record]) -> bool {
    let mut seen = [0u64; 64];
    records.iter().enumerate().all(|(place, record)| {
        let id = u32_at(record, FUNCTION_ID);
        // Twelve bits: one of the bitmap's 4096.
        let hash = id.wrapping_mul(0x9E37_79B1) >> 20;
        let (word, bit) = (&mut seen[hash as usize / 64], 1 << (hash % 64));
        let met = *word & bit != 0;
        *word |= bit;
        !met || records[..place].iter().all(|other| u32_at(other, FUNCTION_ID) != id)
    })
}

fn record_ok(record: &Record) -> bool {
    fixed_fields_ok(record)
        && information_ok(record)
        && span_if_ok(record).is_some_and(|span| nonce_ok(record) && lock_fields_ok(record, &span))
}

/// The rules of single fields. "Unused bytes are zero. A segment without its valid bit is zero."
fn fixed_fields_ok(record: &Record) -> bool {
    let id = u32_at(record, FUNCTION_ID);
    id & FUNCTION_ID_ZERO == 0
        && (id & SEGMENT_VALID != 0 || id & SEGMENT == 0)
        && record[11] == 0
        && u16_at(record, INFO) & !RECORD_INFO == 0
        && u16_at(record, 18) == 0
        && u64_at(record, 32) == 0
}

/// "range count N, 0 to 8"; the ranges below N keep their rules, the places from N on are unused. Gives the pages between
/// which the ranges lie, in the same pass.
fn span_if_ok(record: &Record) -> Option<Span> {
    let n = record[RANGE_COUNT] as usize;
    if n > MOST_RANGES {
        return None;
    }
    let (used, unused) = places(record).split_at(n);
    let mut ids = RisingIds::default();
    let mut span = Span::NO_RANGES;
    for range in used.iter().map(range_of) {
        if !(attributes_ok(&range) && pages_ok(&range) && ids.take(&range)) {
            return None;
        }
        span = span.with(&range);
    }
    unused.iter().all(|place| *place == [0; 16]).then_some(span)
}

/// "device information length L, 0 to 52; the information"; the bytes from L on are unused.
fn information_ok(record: &Record) -> bool {
    let l = u32_at(record, INFORMATION_LENGTH) as usize;
    l <= MOST_INFORMATION && record[INFORMATION + l..].iter().fold(0, |all, byte| all | byte) == 0
}

/// "Held is 1 exactly in CONFIG_LOCKED; otherwise the nonce is zero."
fn nonce_ok(record: &Record) -> bool {
    match record[STATE] {
        CONFIG_LOCKED => record[HELD] == 1,
        _ => record[HELD] == 0 && *nonce_of(record) == [0; 32],
    }
}

/// "In states 0 and 3 bytes 6-9 and 24-31 are zero. In states 1 and 2 the flags use bits 0 and 2 only, and the offset meets
/// the lock's rule". No other state is one.
fn lock_fields_ok(record: &Record, span: &Span) -> bool {
    match record[STATE] {
        CONFIG_UNLOCKED | ERROR => u32_at(record, FLAGS) == 0 && u64_at(record, OFFSET) == 0,
        CONFIG_LOCKED | RUN => flags(record) & !SUPPORTED_FLAGS == 0 && span.takes(i64_at(record, OFFSET)),
        _ => false,
    }
}

// ---- Ranges ---------------------------------------------------------------------------------------------------------

/// The eight places for ranges. "A range is first page (8), pages (4), attributes (2), range ID (2)".
fn places(record: &Record) -> &[[u8; 16]] {
    record[RANGES..INFORMATION_LENGTH].as_chunks().0
}

/// The ranges of an accepted record.
fn ranges(record: &Record) -> impl Iterator<Item = Range> {
    places(record).iter().take(record[RANGE_COUNT] as usize).map(range_of)
}

fn range_of(place: &[u8; 16]) -> Range {
    Range { first: u64_at(place, 0), pages: u32_at(place, 8), attributes: u16_at(place, 12), id: u16_at(place, 14) }
}

fn put_range(out: &mut [u8], at: usize, range: &Range) -> usize {
    let at = put(out, at, range.first.to_le_bytes());
    let at = put(out, at, range.pages.to_le_bytes());
    let at = put(out, at, range.attributes.to_le_bytes());
    put(out, at, range.id.to_le_bytes())
}

fn attributes_ok(range: &Range) -> bool {
    range.attributes & !ATTRIBUTES == 0
}

/// "pages is at least 1, first + pages is at most 2^52": the sum is never formed, so it cannot wrap.
fn pages_ok(range: &Range) -> bool {
    range.pages >= 1 && range.first <= END_OF_PAGES - u64::from(range.pages)
}

/// "Among ranges with ID 0 to 7 the IDs never fall": takes ranges in order, and is false for one that falls.
#[derive(Default)]
struct RisingIds {
    last: u16,
}

impl RisingIds {
    fn take(&mut self, range: &Range) -> bool {
        if range.id > 7 {
            return true;
        }
        let falls = range.id < self.last;
        self.last = range.id;
        !falls
    }
}

/// The pages between which ranges lie: the lowest first page and the highest end.
struct Span {
    lowest: i64,
    end: i64,
}

impl Span {
    /// Any offset that is a multiple of 4096 is at least -2^51 pages and below 2^51: it fits here.
    const NO_RANGES: Span = Span { lowest: END_OF_PAGES as i64, end: 0 };

    /// With one range more, which is known to end by 2^52.
    fn with(self, range: &Range) -> Span {
        let first = range.first as i64;
        Span { lowest: self.lowest.min(first), end: self.end.max(first + i64::from(range.pages)) }
    }

    /// The lock's rule. "It is a multiple of 4096, and for every range first + offset/4096 is at least 0 and, with pages
    /// added, at most 2^52": it is so for every range if it is for the lowest and for the highest.
    fn takes(&self, offset: i64) -> bool {
        let shift = offset / PAGE;
        offset % PAGE == 0 && self.lowest + shift >= 0 && self.end + shift <= END_OF_PAGES as i64
    }
}

// ---- Parts of a record ----------------------------------------------------------------------------------------------

fn flags(record: &Record) -> u16 {
    u16_at(record, FLAGS)
}

fn nonce_of(record: &Record) -> &[u8; 32] {
    record[NONCE..].first_chunk().expect("a record has 256 bytes")
}

fn set_nonce(record: &mut Record, nonce: [u8; 32]) {
    put(record, NONCE, nonce);
}

/// "Only CONFIG_LOCKED and RUN move".
fn can_move(record: &Record) -> bool {
    matches!(record[STATE], CONFIG_LOCKED | RUN)
}

/// Enters `state` with nonce and lock fields cleared. "The lock fields are record bytes 6-9 and 24-31."
fn clear_to(record: &mut Record, state: u8) {
    record[STATE] = state;
    record[HELD] = 0;
    record[FLAGS..RANGE_COUNT].fill(0);
    record[OFFSET..OFFSET + 8].fill(0);
    set_nonce(record, [0; 32]);
}

/// One number for each identity. "Two identities are equal when bits 15:0, bit 24 and, if bit 24 is set, bits 23:16 agree."
pub(crate) fn identity(function_id: FunctionId) -> u32 {
    let FunctionId(id) = function_id;
    if id & SEGMENT_VALID != 0 { id & (REQUESTER | SEGMENT | SEGMENT_VALID) } else { id & REQUESTER }
}

fn find(records: &mut [Record], function_id: FunctionId) -> Option<&mut Record> {
    let wanted = identity(function_id);
    records.iter_mut().find(|record| identity(FunctionId(u32_at(*record, FUNCTION_ID))) == wanted)
}

// ---- Requests -------------------------------------------------------------------------------------------------------

const VERSION: u8 = 0x10;
const HEADER: usize = 16;
const LEAST_REPLY_BUFFER: usize = 256;
const TDISP_ERROR: u8 = 0x7F;

/// The listed requests.
#[derive(Clone, Copy)]
enum Request {
    GetVersion,
    GetCapabilities,
    Lock,
    GetReport,
    GetState,
    Start,
    Stop,
}

impl Request {
    fn listed(code: u8) -> Option<Request> {
        Some(match code {
            0x81 => Request::GetVersion,
            0x82 => Request::GetCapabilities,
            0x83 => Request::Lock,
            0x84 => Request::GetReport,
            0x85 => Request::GetState,
            0x86 => Request::Start,
            0x87 => Request::Stop,
            _ => return None,
        })
    }

    /// The exact length of the payload: the table's length without the header.
    fn payload(self) -> usize {
        match self {
            Request::GetVersion | Request::GetState | Request::Stop => 0,
            Request::GetCapabilities | Request::GetReport => 4,
            Request::Lock => 20,
            Request::Start => 32,
        }
    }

    /// The table's states; 02, 1/12, for the report: "Allow states 1 and 2; states 0 and 3 still get 04h."
    fn legal_in(self, state: u8) -> bool {
        match self {
            Request::Lock => state == CONFIG_UNLOCKED,
            Request::GetReport => state == CONFIG_LOCKED || state == RUN,
            Request::Start => state == CONFIG_LOCKED,
            Request::GetVersion | Request::GetCapabilities | Request::GetState | Request::Stop => true,
        }
    }
}

/// A TDISP_ERROR. "Data is 0 unless 001's error table names a value": it names the request code for UNSUPPORTED_REQUEST.
enum TdispError {
    InvalidRequest,
    InvalidInterfaceState,
    UnsupportedRequest(u8),
    VersionMismatch,
    InvalidInterface,
    InvalidNonce,
    InsufficientEntropy,
    InvalidDeviceConfiguration,
}

impl TdispError {
    fn code_and_data(self) -> (u32, u32) {
        match self {
            TdispError::InvalidRequest => (0x01, 0),
            TdispError::InvalidInterfaceState => (0x04, 0),
            TdispError::UnsupportedRequest(code) => (0x07, code.into()),
            TdispError::VersionMismatch => (0x41, 0),
            TdispError::InvalidInterface => (0x101, 0),
            TdispError::InvalidNonce => (0x102, 0),
            TdispError::InsufficientEntropy => (0x103, 0),
            TdispError::InvalidDeviceConfiguration => (0x104, 0),
        }
    }
}

/// What a call lends beside request, reply and table.
struct Lent<'a> {
    nonce: &'a [u8; 32],
    ready: bool,
    streams: &'a [u8; 32],
    session: Session,
}

impl Lent<'_> {
    /// "bit k of byte j: stream 8j+k is secure"
    fn is_secure(&self, stream: Stream) -> bool {
        let Stream(number) = stream;
        self.streams[usize::from(number / 8)] >> (number % 8) & 1 == 1
    }
}

/// A reply's payload: what follows the header in the least reply buffer.
type Body = [u8; LEAST_REPLY_BUFFER - HEADER];

fn serve(
    request: &[u8],
    reply: &mut [u8],
    table: &mut [u8],
    nonce: &[u8],
    ready: bool,
    streams: &[u8],
    session: Session,
) -> Result<usize, Refusal> {
    let records = accepted(table)?;
    let reply: &mut [u8; LEAST_REPLY_BUFFER] = reply.first_chunk_mut().ok_or(Refusal::ShortReplyBuffer)?;
    let (header, payload) = request.split_first_chunk::<HEADER>().ok_or(Refusal::ShortRequest)?;
    let nonce = nonce.try_into().map_err(|_| Refusal::StreamsOrNonceLength)?;
    let streams = streams.try_into().map_err(|_| Refusal::StreamsOrNonceLength)?;
    let lent = Lent { nonce, ready, streams, session };

    let (reply_header, body) = reply.split_at_mut(HEADER);
    let body: &mut Body = body.try_into().expect("the least buffer without the header");
    let (code, length) = match handle(header, payload, records, &lent, body) {
        // A reply's code is its request's without the high bit: 81h gets 01h.
        Ok(length) => (header[1] & 0x7F, length),
        Err(error) => (TDISP_ERROR, put_error(body, error)),
    };
    // "Replies carry version 10h, reserved zero, and the request's 12 bytes as received (ours)."
    reply_header[..4].copy_from_slice(&[VERSION, code, 0, 0]);
    reply_header[4..].copy_from_slice(&header[4..]);
    Ok(HEADER + length)
}

/// "Errors are 7Fh with code (4) and data (4), 24 bytes in all."
fn put_error(body: &mut Body, error: TdispError) -> usize {
    let (code, data) = error.code_and_data();
    let at = put(body, 0, code.to_le_bytes());
    put(body, at, data.to_le_bytes())
}

/// "Checks in order: version ...; type unlisted ...; length not exact ...; interface unknown ...; state ...; then the
/// request's own". Gives the length of the reply's payload. On an error nothing has been written.
fn handle(
    header: &[u8; HEADER],
    payload: &[u8],
    records: &mut [Record],
    lent: &Lent,
    body: &mut Body,
) -> Result<usize, TdispError> {
    if header[0] != VERSION {
        return Err(TdispError::VersionMismatch);
    }
    let request = Request::listed(header[1]).ok_or(TdispError::UnsupportedRequest(header[1]))?;
    if payload.len() != request.payload() {
        return Err(TdispError::InvalidRequest);
    }
    let record = find(records, FunctionId(u32_at(header, 4))).ok_or(TdispError::InvalidInterface)?;
    if !request.legal_in(record[STATE]) {
        return Err(TdispError::InvalidInterfaceState);
    }
    match request {
        Request::GetVersion => Ok(put(body, 0, [0x01, VERSION])),
        Request::GetCapabilities => Ok(put_capabilities(body)),
        Request::Lock => lock(record, payload, lent, body),
        Request::GetReport => portion(record, payload, body),
        Request::GetState => Ok(put(body, 0, [record[STATE]])),
        Request::Start => start(record, payload),
        Request::Stop => {
            // "Stop gives state 0 and clears the lock fields and nonce."
            clear_to(record, CONFIG_UNLOCKED);
            Ok(0)
        }
    }
}

/// "DSM_CAPS 0; sixteen mask bytes, FE then zeros (bit n is code 80h + n); flags supported 0005h; three reserved; address
/// width 64; 1; 1."
fn put_capabilities(body: &mut Body) -> usize {
    let mut capabilities = [0; 28];
    capabilities[4] = 0xFE;
    put(&mut capabilities, 20, SUPPORTED_FLAGS.to_le_bytes());
    put(&mut capabilities, 25, [64, 1, 1]);
    put(body, 0, capabilities)
}

/// "Payload: flags 2, default stream 1, reserved 1, offset 8, P2P mask 8."
fn lock(record: &mut Record, payload: &[u8], lent: &Lent, body: &mut Body) -> Result<usize, TdispError> {
    let flags = u16_at(payload, 0);
    let stream = Stream(payload[2]);
    let offset = i64_at(payload, 4);
    let span = ranges(record).fold(Span::NO_RANGES, |span, range| span.with(&range));
    if flags & REFUSED_FLAGS != 0 || !span.takes(offset) {
        return Err(TdispError::InvalidRequest);
    }
    if !lent.is_secure(stream) {
        return Err(TdispError::InvalidDeviceConfiguration);
    }
    if !lent.ready {
        return Err(TdispError::InsufficientEntropy);
    }
    // "flag bits 0 and 2 (all others as zero), stream, session and offset stored, state 1, nonce held and replied"
    record[STATE] = CONFIG_LOCKED;
    record[HELD] = 1;
    put(record, FLAGS, (flags & SUPPORTED_FLAGS).to_le_bytes());
    record[STREAM] = stream.0;
    record[SESSION] = lent.session.0;
    put(record, OFFSET, offset.to_le_bytes());
    set_nonce(record, *lent.nonce);
    Ok(put(body, 0, *lent.nonce))
}

/// "A different nonce is 102h INVALID_NONCE and changes nothing (ours). An equal one is spent: state 2, nonce cleared."
fn start(record: &mut Record, payload: &[u8]) -> Result<usize, TdispError> {
    if payload != nonce_of(record) {
        return Err(TdispError::InvalidNonce);
    }
    record[STATE] = RUN;
    record[HELD] = 0;
    set_nonce(record, [0; 32]);
    Ok(0)
}

// ---- Reports --------------------------------------------------------------------------------------------------------

/// "Total is 20 + 16N + L, at most 200."
const MOST_REPORT: usize = 200;
const MOST_PORTION: usize = 128;

/// "Request: OFFSET 2, LENGTH 2." The reply: "portion length 2, remainder length 2, bytes".
fn portion(record: &Record, payload: &[u8], body: &mut Body) -> Result<usize, TdispError> {
    let offset = usize::from(u16_at(payload, 0));
    let length = usize::from(u16_at(payload, 2));
    let mut report = [0; MOST_REPORT];
    let total = put_report(&report_of(record), &mut report);
    if offset >= total {
        return Err(TdispError::InvalidRequest);
    }
    // "The portion is the least of LENGTH, total - OFFSET and 128".
    let portion = length.min(total - offset).min(MOST_PORTION);
    let remainder = total - offset - portion;
    put(body, 0, (portion as u16).to_le_bytes());
    put(body, 2, (remainder as u16).to_le_bytes());
    body[4..4 + portion].copy_from_slice(&report[offset..offset + portion]);
    Ok(4 + portion)
}

/// What an accepted record reports. "INTERFACE_INFO with bit 0 from NO_FW_UPDATE, ... MSI-X control (0 unless LOCK_MSIX),
/// LNR, TPH, ... N ranges with shifted first page, ... Attribute bits 0 and 1 are cleared unless LOCK_MSIX."
fn report_of(record: &Record) -> Report {
    let flags = flags(record);
    let msix_locked = flags & LOCK_MSIX != 0;
    let shift = i64_at(record, OFFSET) / PAGE;
    let mut report = Report {
        info: u16_at(record, INFO) | (flags & NO_FW_UPDATE),
        msix: if msix_locked { u16_at(record, MSIX) } else { 0 },
        lnr: u16_at(record, LNR),
        tph: u32_at(record, TPH),
        n: record[RANGE_COUNT].into(),
        l: u32_at(record, INFORMATION_LENGTH),
        information: bytes_at(record, INFORMATION),
        ..Report::ZERO
    };
    for (reported, range) in report.ranges.iter_mut().zip(ranges(record)) {
        *reported = Range {
            // From 0 to 2^52, by the lock's rule.
            first: range.first.wrapping_add_signed(shift),
            attributes: if msix_locked { range.attributes } else { range.attributes & !MSIX_ATTRIBUTES },
            ..range
        };
    }
    report
}

/// Writes a report whose N and L are in bounds and gives its length.
fn put_report(fields: &Report, out: &mut [u8; MOST_REPORT]) -> usize {
    put(out, 0, fields.info.to_le_bytes());
    put(out, 2, [0, 0]);
    put(out, 4, fields.msix.to_le_bytes());
    put(out, 6, fields.lnr.to_le_bytes());
    put(out, 8, fields.tph.to_le_bytes());
    let mut at = put(out, 12, fields.n.to_le_bytes());
    for range in &fields.ranges[..fields.n as usize] {
        at = put_range(out, at, range);
    }
    at = put(out, at, fields.l.to_le_bytes());
    let information = &fields.information[..fields.l as usize];
    out[at..at + information.len()].copy_from_slice(information);
    at + information.len()
}

/// Why a report is not read or written: 01's numbers 20 to 26.
#[derive(Clone, Copy)]
enum ReportRefusal {
    TooShort = 20,
    TooMany = 21,
    TooLong = 22,
    ReservedBit = 23,
    Pages = 24,
    FallingIds = 25,
    ShortOutput = 26,
}

/// An interface report's fields. "Refusals write nothing and hand back zeros".
pub fn read_report(report: &[u8]) -> Report {
    read(report).unwrap_or_else(|refusal| Report { number: refusal as u32, ..Report::ZERO })
}

/// The report of these fields at the front of `output`, its length returned. "a refusal writes nothing and returns length 0".
pub fn write_report(fields: &Report, output: &mut [u8]) -> Answer {
    match write(fields, output) {
        Ok(length) => Answer { number: 0, length: length as u32 },
        Err(refusal) => Answer { number: refusal as u32, length: 0 },
    }
}

/// "20 under 20 bytes; 21 N over 8; 20 under 20 + 16N; 21 L over 52; 20 under 20 + 16N + L; 22 longer; 23 ...; 24 ...; 25 ..."
fn read(report: &[u8]) -> Result<Report, ReportRefusal> {
    let at_least = |length| if report.len() < length { Err(ReportRefusal::TooShort) } else { Ok(()) };
    at_least(20)?;
    let n = at_most(u32_at(report, 12), MOST_RANGES)?;
    at_least(20 + 16 * n)?;
    let l = at_most(u32_at(report, 16 + 16 * n), MOST_INFORMATION)?;
    let total = 20 + 16 * n + l;
    at_least(total)?;
    if report.len() > total {
        return Err(ReportRefusal::TooLong);
    }

    // "Otherwise all fields, N ranges, and L bytes, places past them zero".
    let mut fields = Report {
        info: u16_at(report, 0),
        msix: u16_at(report, 4),
        lnr: u16_at(report, 6),
        tph: u32_at(report, 8),
        n: n as u32,
        l: l as u32,
        ..Report::ZERO
    };
    for (range, place) in fields.ranges.iter_mut().zip(report[16..16 + 16 * n].as_chunks().0) {
        *range = range_of(place);
    }
    fields.information[..l].copy_from_slice(&report[total - l..]);
    if u16_at(report, 2) != 0 {
        return Err(ReportRefusal::ReservedBit);
    }
    check_bits_and_ranges(fields.info, &fields.ranges[..n])?;
    Ok(fields)
}

/// "The writer takes just such fields and an output of 200 bytes or more, with the reader's numbers 21 and 23 to 25 and 26
/// for a short output, tested first."
fn write(fields: &Report, output: &mut [u8]) -> Result<usize, ReportRefusal> {
    let output = output.first_chunk_mut().ok_or(ReportRefusal::ShortOutput)?;
    let n = at_most(fields.n, MOST_RANGES)?;
    at_most(fields.l, MOST_INFORMATION)?;
    check_bits_and_ranges(fields.info, &fields.ranges[..n])?;
    Ok(put_report(fields, output))
}

fn at_most(count: u32, most: usize) -> Result<usize, ReportRefusal> {
    let count = count as usize;
    if count > most { Err(ReportRefusal::TooMany) } else { Ok(count) }
}

/// "23 a reserved bit set (INTERFACE_INFO 15:5, bytes 2-3, attributes 15:4); 24 pages 0, or first + pages above 2^52; 25 IDs
/// 0 to 7 that fall", each over all ranges before the next.
fn check_bits_and_ranges(info: u16, ranges: &[Range]) -> Result<(), ReportRefusal> {
    if info & !REPORT_INFO != 0 || !ranges.iter().all(attributes_ok) {
        return Err(ReportRefusal::ReservedBit);
    }
    if !ranges.iter().all(pages_ok) {
        return Err(ReportRefusal::Pages);
    }
    let mut ids = RisingIds::default();
    if !ranges.iter().all(|range| ids.take(range)) {
        return Err(ReportRefusal::FallingIds);
    }
    Ok(())
}

// ---- Changes --------------------------------------------------------------------------------------------------------

/// What a register class does to the interface that the write names.
enum Effect {
    Allowed,
    ToError,
    ToErrorUnderLockMsix,
    DeviceWide,
}

fn effect(class: u8) -> Effect {
    match class {
        // "Allowed: 1 MSI, 3 AER, 9 virtual channel, 11 L1 PM, 12 link status, 13 ACS, 14 LTR, 15 power allocation."
        1 | 3 | 9 | 11..=15 => Effect::Allowed,
        // "Class 2 MSI-X: ERROR only under LOCK_MSIX."
        2 => Effect::ToErrorUnderLockMsix,
        // "Class 10 multicast: a device-wide event, though the write names an interface".
        10 => Effect::DeviceWide,
        // 4 to 8, 16, 17, and "Any other class: ERROR (ours)."
        _ => Effect::ToError,
    }
}

fn written(records: &mut [Record], function_id: FunctionId, class: u8) -> Result<u32, Refusal> {
    let record = find(records, function_id).ok_or(Refusal::NoSuchInterface)?;
    Ok(match effect(class) {
        Effect::Allowed => 0,
        Effect::ToError => move_if(record, true),
        Effect::ToErrorUnderLockMsix => move_if(record, flags(record) & LOCK_MSIX != 0),
        Effect::DeviceWide => move_all(records, |_| true),
    })
}

/// Sends the record to ERROR if the change is for it and it can move; gives how many moved.
fn move_if(record: &mut Record, hit: bool) -> u32 {
    let moves = hit && can_move(record);
    if moves {
        clear_to(record, ERROR);
    }
    moves.into()
}

fn move_all(records: &mut [Record], hit: impl Fn(&Record) -> bool) -> u32 {
    records.iter_mut().map(|record| move_if(record, hit(record))).sum()
}
