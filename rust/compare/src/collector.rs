//! An ordinary collector for reports that come in portions, written by hand from the papers (02's 2/12, 01, and 001's Table 11-14
//! for the reply's fields) without a look at the proved one: that one's partner in tests. Words in quotes are 02's, or 01's where
//! it is named.
//!
//! Callers check nothing first: any bytes may come as a reply, and every value of the state is legal.

use crate::ordinary::{identity, u16_at, u32_at};
use tdisp::FunctionId;

/// 01: "Total is 20 + 16N + L, at most 200."
pub const MOST_REPORT: usize = 200;
/// A report reply before its bytes: the header, the portion's length, the remainder's.
const FRONT: usize = 20;
const VERSION: u8 = 0x10;
const REPORT_REPLY: u8 = 0x04;

// Where a reply's fields stand.
const FUNCTION_ID: usize = 4;
const PORTION: usize = 16;
const REMAINDER: usize = 18;

/// Why a reply is not taken: "the first of these names that applies". The numbers are the C interface's.
#[derive(Clone, Copy, Debug, PartialEq, Eq)]
pub enum Refusal {
    NotAReportReply = 30,
    OtherInterface = 31,
    Length = 32,
    TotalDifferent = 33,
    TotalOver200 = 34,
}

/// "a collector that keeps the bytes it has so far and how many"
#[derive(Clone, Debug, PartialEq, Eq)]
pub struct Collector {
    pub interface: FunctionId,
    /// How many bytes it has
    pub held: u32,
    /// The "before" of a total: that of the first reply taken, and none until then
    pub total: Option<u32>,
    /// The bytes it has, at the front
    pub places: [u8; MOST_REPORT],
}

/// A reply that may be taken.
struct Portion<'a> {
    bytes: &'a [u8],
    total: u32,
}

impl Collector {
    /// With nothing taken yet.
    pub fn new(interface: FunctionId) -> Collector {
        Collector { interface, held: 0, total: None, places: [0; MOST_REPORT] }
    }

    /// The state that these parts of the C struct mean: `begun` is 0 until a reply was taken, and then `total` means nothing.
    pub fn from_parts(interface: FunctionId, held: u32, total: u32, begun: u32, places: [u8; MOST_REPORT]) -> Collector {
        Collector { interface, held, total: (begun != 0).then_some(total), places }
    }

    /// "It says which OFFSET to ask for next". 001: "Offset is the sum of PORTION_LENGTH values in all previous ... responses."
    pub fn next_offset(&self) -> u32 {
        self.held
    }

    /// Takes a reply, or refuses it: "A refused reply leaves it as it was."
    pub fn take(&mut self, reply: &[u8]) -> Result<(), Refusal> {
        let Portion { bytes, total } = self.judge(reply)?;
        // A total of at most 200 has the bytes held and the portion in it.
        let held = self.held as usize;
        self.places[held..held + bytes.len()].copy_from_slice(bytes);
        self.held += bytes.len() as u32;
        self.total = Some(total);
        Ok(())
    }

    /// Whether the last reply taken left no remainder. 001: "the entire TDI report has been sent".
    pub fn is_finished(&self) -> bool {
        self.total == Some(self.held)
    }

    /// The bytes it has: finished, the whole report.
    pub fn bytes(&self) -> &[u8] {
        &self.places[..MOST_REPORT.min(self.held as usize)]
    }

    /// "not a report reply (under 20 bytes, other version or type), other interface, length not as the portion says, total
    /// different from before, total over 200", in this order.
    fn judge<'a>(&self, reply: &'a [u8]) -> Result<Portion<'a>, Refusal> {
        let (front, bytes) = reply.split_first_chunk::<FRONT>().ok_or(Refusal::NotAReportReply)?;
        if front[..2] != [VERSION, REPORT_REPLY] {
            return Err(Refusal::NotAReportReply);
        }
        if identity(FunctionId(u32_at(front, FUNCTION_ID))) != identity(self.interface) {
            return Err(Refusal::OtherInterface);
        }
        let (portion, remainder) = (u16_at(front, PORTION), u16_at(front, REMAINDER));
        if bytes.len() != usize::from(portion) {
            return Err(Refusal::Length);
        }
        // "The total is the bytes held plus portion plus remainder": wide, so that no count wraps.
        let total = u64::from(self.held) + u64::from(portion) + u64::from(remainder);
        if self.total.is_some_and(|before| total != u64::from(before)) {
            return Err(Refusal::TotalDifferent);
        }
        if total > MOST_REPORT as u64 {
            return Err(Refusal::TotalOver200);
        }
        Ok(Portion { bytes, total: total as u32 })
    }
}
