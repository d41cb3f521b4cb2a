//! For hosts: a report that comes in portions, collected, over the proved archive `libtdisp_host.a`.
//!
//! A [`Collector`] says which OFFSET to ask for next, and takes the reply or refuses it. If each portion is asked for at that
//! OFFSET, while one lock stands from the first reply to the last, the finished collection is the whole report, however it was
//! cut, and [`read_report`](crate::read_report) reads it. A reply carries no OFFSET: a first one that was asked for elsewhere than
//! at 0 is taken if its total fits; later ones that were asked for elsewhere under the same lock are refused, by their total.
//!
//! ```
//! use tdisp::host::Collector;
//! use tdisp::{FunctionId, Session, read_report, respond};
//!
//! // A card with one interface, requester 0100h, that has a range of two pages from page 16 on. It is locked with stream 0.
//! let (mut table, mut streams, nonce) = ([0; 256], [0; 32], [0x5A; 32]);
//! table[1] = 1;
//! (table[10], table[72], table[80]) = (1, 16, 2);
//! streams[0] = 1;
//! let mut card = |request: &[u8]| {
//!     let mut reply = [0; 256];
//!     let answer = respond(request, &mut reply, &mut table, &nonce, true, &streams, Session(1));
//!     reply[..answer.length as usize].to_vec()
//! };
//! let mut lock = [0; 36];
//! lock[..6].copy_from_slice(&[0x10, 0x83, 0, 0, 0x00, 0x01]);
//! assert_eq!(card(&lock)[1], 0x03);
//!
//! // The host asks with LENGTH 16, at each OFFSET that the collector says.
//! let mut collector = Collector::new(FunctionId(0x0100));
//! while !collector.finished() {
//!     let mut request = [0x10, 0x84, 0, 0, 0x00, 0x01, 0, 0, 0, 0, 0, 0, 0, 0, 0, 0, 0, 0, 16, 0];
//!     request[16..18].copy_from_slice(&(collector.next_offset() as u16).to_le_bytes());
//!     let taken = collector.take(&card(&request));
//!     assert_eq!(taken.number, 0);
//!     collector = taken.collector;
//! }
//! let report = read_report(collector.bytes().as_slice());
//! assert_eq!((report.number, report.n, report.ranges[0].first, report.ranges[0].pages), (0, 1, 16, 2));
//! ```

use crate::FunctionId;
use std::mem::{offset_of, size_of};

/// A report so far, and of which interface. Every value is legal, also one that [`Collector::new`] did not make.
#[repr(C)]
#[derive(Clone, Copy, Debug, PartialEq, Eq)]
pub struct Collector {
    /// The interface's FUNCTION_ID
    pub function_id: u32,
    /// How many bytes are there so far
    pub held: u32,
    /// The total that the first reply taken said; it counts once `begun` does
    pub total: u32,
    /// Any number but 0 once a reply was taken
    pub begun: u32,
    /// The bytes; from a new collector on, places past what is held stay zero
    pub bytes: [u8; 200],
}

/// What a reply gets.
#[repr(C)]
#[derive(Clone, Copy, Debug, PartialEq, Eq)]
pub struct Taken {
    /// 0, or why it was refused
    pub number: u32,
    /// The collector afterwards; as it was beside a refusal
    pub collector: Collector,
}

/// What is held.
#[repr(C)]
#[derive(Clone, Copy, Debug, PartialEq, Eq)]
pub struct Whole {
    /// How many of the bytes count: 200 at most
    pub length: u32,
    /// The bytes
    pub bytes: [u8; 200],
}

// The layout that the archive's C header fixes.
const _: () = {
    assert!(size_of::<Collector>() == 216 && offset_of!(Collector, function_id) == 0 && offset_of!(Collector, held) == 4);
    assert!(offset_of!(Collector, total) == 8 && offset_of!(Collector, begun) == 12 && offset_of!(Collector, bytes) == 16);
    assert!(size_of::<Taken>() == 220 && offset_of!(Taken, number) == 0 && offset_of!(Taken, collector) == 4);
    assert!(size_of::<Whole>() == 204 && offset_of!(Whole, length) == 0 && offset_of!(Whole, bytes) == 4);
};

impl Collector {
    /// A collector that has nothing yet, for the interface with this FUNCTION_ID.
    pub fn new(function_id: FunctionId) -> Collector {
        archive::tdisp_collector_new(function_id.0)
    }

    /// The OFFSET to ask for next. LENGTH is the host's to choose; with 65,535 our responder sends any report in at most two
    /// replies.
    pub fn next_offset(&self) -> u32 {
        archive::tdisp_collector_next(*self)
    }

    /// Takes a reply. `number`: 0 taken; else the first that applies of: 30 not a report reply (under 20 bytes, other version or
    /// type); 31 other interface; 32 length not as the portion says; 33 total different from before; 34 total over 200. The total
    /// is the bytes held plus portion plus remainder. A portion of 0 moves nothing, and when to give up is the host's to say.
    pub fn take(self, reply: &[u8]) -> Taken {
        archive::take(self, reply)
    }

    /// Whether all of the report is there.
    pub fn finished(&self) -> bool {
        archive::tdisp_collector_finished(*self) != 0
    }

    /// What is held.
    pub fn bytes(&self) -> Whole {
        archive::tdisp_collector_bytes(*self)
    }
}

impl Whole {
    /// The bytes that count.
    pub fn as_slice(&self) -> &[u8] {
        self.bytes.get(..self.length as usize).unwrap_or(&self.bytes)
    }
}

/// The archive's functions. Those that take no pointer ask nothing of their callers; what the C header asks of the one that does
/// holds of slices: the pointer is valid for the slice's length and not null, and nobody writes a slice while it is lent.
#[allow(unsafe_code)]
mod archive {
    use super::{Collector, Taken, Whole};

    unsafe extern "C" {
        pub safe fn tdisp_collector_new(function_id: u32) -> Collector;
        pub safe fn tdisp_collector_next(c: Collector) -> u32;
        fn tdisp_collector_take(c: Collector, reply: *const u8, reply_len: usize) -> Taken;
        pub safe fn tdisp_collector_finished(c: Collector) -> u32;
        pub safe fn tdisp_collector_bytes(c: Collector) -> Whole;
    }

    pub fn take(c: Collector, reply: &[u8]) -> Taken {
        // Safety: see the module.
        unsafe { tdisp_collector_take(c, reply.as_ptr(), reply.len()) }
    }
}
