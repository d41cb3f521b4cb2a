//! The TDISP responder of a card, for Rust: a safe wrapper over the proved archive `libtdisp.a`; and for hosts, in [`host`], over
//! `libtdisp_host.a`.
//!
//! Slices go in, plain results come out, and there is nothing for the caller to check: any bytes of any length are answered.
//! A table is records of 256 bytes, 1 to 64 of them, one for each interface; it is lent for each call and holds all that the
//! responder remembers. In messages, reports and tables every field wider than a byte is low byte first.
//!
//! # Numbers
//!
//! Every answer has a `number`. 0: the call was served; a request that gets a TDISP_ERROR reply is served, too. Any other is a
//! refusal, the lowest that applies, and a refused call writes no buffer:
//!
//! 1. the table's length is not 256 to 16,384 in steps of 256
//! 2. a record breaks its rules
//! 3. two records have equal FUNCTION_ID
//! 4. the reply buffer is under 256 bytes
//! 5. the request is under 16 bytes
//! 6. the stream map or the nonce bytes are not 32 long
//! 7. a register write's interface is no record's
//!
//! [`read_report`] and [`write_report`] have numbers of their own, and so has the collector of reports in [`host`].
//!
//! # A lock, a start, and a stream that goes down
//!
//! ```
//! use tdisp::{Session, Stream, respond, stream_down};
//!
//! // One interface, requester 0100h, in CONFIG_UNLOCKED; stream 3 is secure.
//! let mut table = [0; 256];
//! table[..2].copy_from_slice(&[0x00, 0x01]);
//! let mut streams = [0; 32];
//! streams[0] = 1 << 3;
//! // A card draws fresh random bytes for each call.
//! let nonce = [0x5A; 32];
//! let mut reply = [0; 256];
//!
//! // LOCK_INTERFACE with default stream 3, over session 1: the reply carries the nonce.
//! let mut lock = [0; 36];
//! lock[..6].copy_from_slice(&[0x10, 0x83, 0, 0, 0x00, 0x01]);
//! lock[18] = 3;
//! let answer = respond(&lock, &mut reply, &mut table, &nonce, true, &streams, Session(1));
//! assert_eq!((answer.number, answer.length), (0, 48));
//! assert_eq!((reply[1], &reply[16..48]), (0x03, &nonce[..]));
//!
//! // START_INTERFACE with that nonce: the interface is in RUN.
//! let mut start = [0; 48];
//! start[..6].copy_from_slice(&[0x10, 0x86, 0, 0, 0x00, 0x01]);
//! start[16..].copy_from_slice(&reply[16..48]);
//! let answer = respond(&start, &mut reply, &mut table, &nonce, true, &streams, Session(1));
//! assert_eq!((answer.number, answer.length, reply[1]), (0, 16, 0x06));
//! assert_eq!(table[4], 2);
//!
//! // The stream goes down, and the one interface on it goes to ERROR.
//! assert_eq!(stream_down(&mut table, Stream(3)).count, 1);
//! assert_eq!(table[4], 3);
//! ```

#![deny(unsafe_code)]
#![warn(missing_docs)]

pub mod host;

use std::mem::{align_of, offset_of, size_of};

/// A FUNCTION_ID: bits 15:0 requester, 23:16 segment, 24 segment valid.
#[derive(Clone, Copy, Debug, PartialEq, Eq)]
pub struct FunctionId(pub u32);

/// The number of an IDE stream. It is a type of its own, so that it cannot be taken for a session number.
#[derive(Clone, Copy, Debug, PartialEq, Eq)]
pub struct Stream(pub u8);

/// The number of an SPDM session.
#[derive(Clone, Copy, Debug, PartialEq, Eq)]
pub struct Session(pub u8);

/// What a request or the report writer gets.
#[repr(C)]
#[derive(Clone, Copy, Debug, PartialEq, Eq)]
pub struct Answer {
    /// 0, or why it was refused
    pub number: u32,
    /// How many bytes stand at the buffer's front; 0 beside a refusal
    pub length: u32,
}

/// What a change gets.
#[repr(C)]
#[derive(Clone, Copy, Debug, PartialEq, Eq)]
pub struct Moved {
    /// 0, or why it was refused
    pub number: u32,
    /// How many interfaces went to ERROR; 0 beside a refusal
    pub count: u32,
}

/// What the firmware question gets.
#[repr(C)]
#[derive(Clone, Copy, Debug, PartialEq, Eq)]
pub struct Yes {
    /// 0, or why it was refused
    pub number: u32,
    /// 1 for yes; 0 for no, and beside a refusal
    pub yes: u32,
}

/// A range of a report.
#[repr(C)]
#[derive(Clone, Copy, Debug, Default, PartialEq, Eq)]
pub struct Range {
    /// The first page, as a page number
    pub first: u64,
    /// How many pages
    pub pages: u32,
    /// Range attributes, bits 3:0
    pub attributes: u16,
    /// Range ID
    pub id: u16,
}

/// The fields of an interface report.
#[repr(C)]
#[derive(Clone, Copy, Debug, PartialEq, Eq)]
pub struct Report {
    /// What the reader says of it: 0, or why it was refused. The writer does not read it
    pub number: u32,
    /// INTERFACE_INFO
    pub info: u16,
    /// MSI-X control
    pub msix: u16,
    /// LNR control
    pub lnr: u16,
    /// TPH control
    pub tph: u32,
    /// How many of the ranges count
    pub n: u32,
    /// The ranges
    pub ranges: [Range; 8],
    /// How many bytes of the device information count
    pub l: u32,
    /// The device information
    pub information: [u8; 52],
}

impl Report {
    /// Zeros in every field.
    pub const ZERO: Report = Report {
        number: 0,
        info: 0,
        msix: 0,
        lnr: 0,
        tph: 0,
        n: 0,
        ranges: [Range { first: 0, pages: 0, attributes: 0, id: 0 }; 8],
        l: 0,
        information: [0; 52],
    };
}

// The layout that the archive's C header fixes.
const _: () = {
    assert!(size_of::<Answer>() == 8 && offset_of!(Answer, number) == 0 && offset_of!(Answer, length) == 4);
    assert!(size_of::<Moved>() == 8 && offset_of!(Moved, number) == 0 && offset_of!(Moved, count) == 4);
    assert!(size_of::<Yes>() == 8 && offset_of!(Yes, number) == 0 && offset_of!(Yes, yes) == 4);
    assert!(size_of::<Range>() == 16 && align_of::<Range>() == 8);
    assert!(offset_of!(Range, first) == 0 && offset_of!(Range, pages) == 8);
    assert!(offset_of!(Range, attributes) == 12 && offset_of!(Range, id) == 14);
    assert!(size_of::<Report>() == 208 && align_of::<Report>() == 8);
    assert!(offset_of!(Report, number) == 0 && offset_of!(Report, info) == 4 && offset_of!(Report, msix) == 6);
    assert!(offset_of!(Report, lnr) == 8 && offset_of!(Report, tph) == 12 && offset_of!(Report, n) == 16);
    assert!(offset_of!(Report, ranges) == 24 && offset_of!(Report, l) == 152 && offset_of!(Report, information) == 156);
};

pub use archive::{firmware, multicast, read_report, register_write, respond, session_end, stream_down, write_report};

/// The archive's functions: the only unsafe code of the crate, beside the like module of [`host`]. What the C header asks of its
/// callers holds of slices: every pointer is valid for the slice's length and not null, an empty slice's too; a `&mut` slice
/// overlaps no other; nobody else writes a slice while it is lent. The archive keeps no pointer after it returns, and each of its
/// functions returns.
#[allow(unsafe_code)]
mod archive {
    use super::{Answer, FunctionId, Moved, Report, Session, Stream, Yes};

    mod c {
        use crate::{Answer, Moved, Report, Yes};

        unsafe extern "C" {
            pub fn tdisp_respond(
                request: *const u8,
                request_len: usize,
                reply: *mut u8,
                reply_len: usize,
                table: *mut u8,
                table_len: usize,
                nonce: *const u8,
                nonce_len: usize,
                ready: u8,
                streams: *const u8,
                streams_len: usize,
                session: u8,
            ) -> Answer;
            pub fn tdisp_register_write(table: *mut u8, table_len: usize, function_id: u32, class: u8) -> Moved;
            pub fn tdisp_stream_down(table: *mut u8, table_len: usize, stream: u8) -> Moved;
            pub fn tdisp_session_end(table: *mut u8, table_len: usize, session: u8) -> Moved;
            pub fn tdisp_multicast(table: *mut u8, table_len: usize) -> Moved;
            pub fn tdisp_firmware(table: *const u8, table_len: usize) -> Yes;
            pub fn tdisp_read_report(report: *const u8, report_len: usize) -> Report;
            pub fn tdisp_write_report(fields: Report, output: *mut u8, output_len: usize) -> Answer;
        }
    }

    /// Answers a request (numbers 1 to 6). Served: the reply stands at the front of `reply`, `length` is its length, at most 148
    /// bytes, and the rest of the buffer stays; the interface that the request names is changed in `table` as the request says.
    ///
    /// LOCK_INTERFACE is legal in CONFIG_UNLOCKED, GET_DEVICE_INTERFACE_REPORT in CONFIG_LOCKED and RUN, START_INTERFACE in
    /// CONFIG_LOCKED, the other requests in any state; elsewhere the reply is TDISP_ERROR 04h. A report has the same bytes in
    /// CONFIG_LOCKED and RUN.
    ///
    /// `nonce`: 32 fresh random bytes for a lock, and `ready` says whether they are there; `streams`: 32 bytes, bit k of byte j
    /// says that stream 8j+k is secure; `session`: the session that the request came over.
    pub fn respond(
        request: &[u8],
        reply: &mut [u8],
        table: &mut [u8],
        nonce: &[u8],
        ready: bool,
        streams: &[u8],
        session: Session,
    ) -> Answer {
        // Safety: see the module.
        unsafe {
            c::tdisp_respond(
                request.as_ptr(),
                request.len(),
                reply.as_mut_ptr(),
                reply.len(),
                table.as_mut_ptr(),
                table.len(),
                nonce.as_ptr(),
                nonce.len(),
                ready.into(),
                streams.as_ptr(),
                streams.len(),
                session.0,
            )
        }
    }

    /// A register of this class was written, of the interface with this FUNCTION_ID (numbers 1, 2, 3 and 7). If the class may not
    /// be written under a lock, a locked or running interface goes to ERROR; class 10, multicast, is device-wide.
    pub fn register_write(table: &mut [u8], function_id: FunctionId, class: u8) -> Moved {
        // Safety: see the module.
        unsafe { c::tdisp_register_write(table.as_mut_ptr(), table.len(), function_id.0, class) }
    }

    /// A stream went down: interfaces locked with it as default stream go to ERROR (numbers 1 to 3).
    pub fn stream_down(table: &mut [u8], stream: Stream) -> Moved {
        // Safety: see the module.
        unsafe { c::tdisp_stream_down(table.as_mut_ptr(), table.len(), stream.0) }
    }

    /// A session ended: interfaces locked over it go to ERROR (numbers 1 to 3).
    pub fn session_end(table: &mut [u8], session: Session) -> Moved {
        // Safety: see the module.
        unsafe { c::tdisp_session_end(table.as_mut_ptr(), table.len(), session.0) }
    }

    /// A multicast register was written: every locked or running interface goes to ERROR (numbers 1 to 3).
    pub fn multicast(table: &mut [u8]) -> Moved {
        // Safety: see the module.
        unsafe { c::tdisp_multicast(table.as_mut_ptr(), table.len()) }
    }

    /// May the firmware be updated now? Yes exactly if no locked or running interface holds NO_FW_UPDATE (numbers 1 to 3).
    pub fn firmware(table: &[u8]) -> Yes {
        // Safety: see the module.
        unsafe { c::tdisp_firmware(table.as_ptr(), table.len()) }
    }

    /// Reads an interface report. `number`: 0; 20 too short for what it says; 21 N over 8 or L over 52; 22 longer; 23 a reserved
    /// bit set; 24 pages 0, or first + pages above 2^52; 25 IDs 0 to 7 that fall. Fields past N and L are zero; beside a refusal
    /// all are.
    pub fn read_report(report: &[u8]) -> Report {
        // Safety: see the module.
        unsafe { c::tdisp_read_report(report.as_ptr(), report.len()) }
    }

    /// Writes a report at the front of `output`; the rest of the output stays. `number`: 0; 26 output under 200 bytes; 21, 23, 24
    /// and 25 as for [`read_report`]. Ranges past N and information past L are not read.
    pub fn write_report(fields: &Report, output: &mut [u8]) -> Answer {
        // Safety: see the module.
        unsafe { c::tdisp_write_report(*fields, output.as_mut_ptr(), output.len()) }
    }
}
