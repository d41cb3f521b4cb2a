//! The two collectors over one struct, the C interface's, so that each can be set beside the other; and what they are given:
//! requests and replies, collectors and replies from seeds. Words in quotes are 01's.

use crate::calls;
use crate::cases::{self, Rng};
use crate::collector::{Collector as Ordinary, Refusal};
use tdisp::FunctionId;
use tdisp::host::{Collector, Taken};

// ---- The two collectors ---------------------------------------------------------------------------------------------

/// A collector's functions, over the C struct.
pub struct Side {
    pub name: &'static str,
    pub new: fn(FunctionId) -> Collector,
    pub next_offset: fn(&Collector) -> u32,
    pub take: fn(Collector, &[u8]) -> Taken,
    pub finished: fn(&Collector) -> bool,
    pub bytes: fn(&Collector) -> Vec<u8>,
}

pub const PROVED: Side = Side {
    name: "proved",
    new: Collector::new,
    next_offset: Collector::next_offset,
    take: Collector::take,
    finished: Collector::finished,
    bytes: |collector| {
        let whole = collector.bytes();
        assert_eq!(whole.as_slice(), &whole.bytes[..whole.length as usize]);
        whole.as_slice().to_vec()
    },
};

pub const ORDINARY: Side = Side {
    name: "ordinary",
    new: |interface| struct_of(&Ordinary::new(interface)),
    next_offset: |collector| meant_by(collector).next_offset(),
    take: |before, reply| {
        let mut collector = meant_by(&before);
        match number_of(collector.take(reply)) {
            0 => Taken { number: 0, collector: struct_of(&collector) },
            number => Taken { number, collector: before },
        }
    },
    finished: |collector| meant_by(collector).is_finished(),
    bytes: |collector| meant_by(collector).bytes().to_vec(),
};

/// The ordinary collector of the same state.
pub fn meant_by(collector: &Collector) -> Ordinary {
    let Collector { function_id, held, total, begun, bytes } = *collector;
    Ordinary::from_parts(FunctionId(function_id), held, total, begun, bytes)
}

fn struct_of(collector: &Ordinary) -> Collector {
    Collector {
        function_id: collector.interface.0,
        held: collector.held,
        total: collector.total.unwrap_or(0),
        begun: collector.total.is_some().into(),
        bytes: collector.places,
    }
}

pub fn number_of(taken: Result<(), Refusal>) -> u32 {
    taken.map_or_else(|refusal| refusal as u32, |()| 0)
}

pub const NOT_A_REPORT_REPLY: u32 = 30;
pub const OTHER_INTERFACE: u32 = 31;
pub const LENGTH: u32 = 32;
pub const TOTAL_DIFFERENT: u32 = 33;
pub const TOTAL_OVER_200: u32 = 34;

// ---- Requests and replies -------------------------------------------------------------------------------------------

/// A reply of type 04h: "portion length 2, remainder length 2, bytes".
pub fn reply_for(function_id: u32, portion: u16, remainder: u16, bytes: &[u8]) -> Vec<u8> {
    let id = function_id.to_le_bytes();
    [&[0x10, 0x04, 0, 0][..], &id, &[0; 8], &portion.to_le_bytes(), &remainder.to_le_bytes(), bytes].concat()
}

/// GET_DEVICE_INTERFACE_REPORT: "OFFSET 2, LENGTH 2".
pub fn ask(function_id: u32, offset: u16, length: u16) -> Vec<u8> {
    [&[0x10, 0x84, 0, 0][..], &function_id.to_le_bytes(), &[0; 8], &offset.to_le_bytes(), &length.to_le_bytes()].concat()
}

/// What a served request gets.
pub fn serve(responder: &calls::Side, rng: &mut Rng, request: Vec<u8>, table: &mut [u8]) -> Vec<u8> {
    let outcome = responder.run(&cases::lent(rng, request), table);
    assert_eq!(outcome.number, 0, "served");
    outcome.reply[..outcome.value as usize].to_vec()
}

// ---- Collectors and replies from seeds ------------------------------------------------------------------------------

/// A collector as replies leave it: new, begun, or finished.
pub fn filled(rng: &mut Rng, interface: u32) -> Collector {
    let new = Collector { function_id: interface, held: 0, total: 0, begun: 0, bytes: [0; 200] };
    if rng.once_in(6) {
        return new;
    }
    let total = if rng.once_in(4) { rng.pick(&[0, 1, 20, 127, 128, 129, 199, 200]) } else { rng.below(201) as u32 };
    let held = if rng.once_in(6) { total } else { rng.below(u64::from(total) + 1) as u32 };
    let mut bytes = [0; 200];
    rng.fill(&mut bytes[..held as usize]);
    Collector { held, total, begun: 1, bytes, ..new }
}

/// The identity of a collector for random replies: one with a marked segment, one without.
pub fn any_interface(rng: &mut Rng) -> u32 {
    let id = rng.pick(&[0x0000_0100, 0x0105_0100, 0x0100_0000, rng.clone().u64() as u32]);
    cases::alias(rng, id)
}

/// A reply that the collector takes, if it can take any.
pub fn right_reply(rng: &mut Rng, collector: &Collector) -> Vec<u8> {
    let total = if collector.begun == 0 { rng.below(201) as u32 } else { collector.total.min(200) };
    let left = total.saturating_sub(collector.held);
    let portion = match rng.below(4) {
        0 => 0,
        1 => left,
        _ => rng.below(u64::from(left) + 1) as u32,
    };
    let bytes = rng.bytes(portion as usize);
    let mut reply = reply_for(cases::alias(rng, collector.function_id), portion as u16, (left - portion) as u16, &bytes);
    // Reserved bytes hold anything.
    if rng.once_in(2) {
        rng.fill(&mut reply[2..4]);
        rng.fill(&mut reply[8..16]);
    }
    reply
}

/// Spoils one field, one byte or the length.
pub fn spoil(rng: &mut Rng, reply: &mut Vec<u8>) {
    match rng.below(8) {
        0 => reply[0] = rng.pick(&[0x00, 0x0F, 0x11, 0x20, 0x90]),
        1 => reply[1] = rng.pick(&[0x00, 0x01, 0x03, 0x05, 0x7F, 0x84]),
        2 => {
            let bit = rng.index(32);
            reply[4 + bit / 8] ^= 1 << (bit % 8);
        }
        // The portion's length or the remainder's.
        3 | 4 => {
            let field = &mut reply[rng.pick(&[16, 18])..][..2];
            let number = u16::from_le_bytes([field[0], field[1]]);
            let near = [number.wrapping_add(1), number.wrapping_sub(1), number ^ 0x0100];
            let other = if rng.once_in(2) { rng.pick(&near) } else { rng.pick(&[0, 128, 200, 201, 65_535]) };
            field.copy_from_slice(&other.to_le_bytes());
        }
        // Bytes too few or too many, the header's among them.
        5 => reply.truncate(rng.index(reply.len())),
        6 => {
            let more = rng.pick(&[1, 1, 2, 16, 128]);
            reply.extend(rng.bytes(more));
        }
        _ => {
            let at = rng.index(reply.len());
            reply[at] = rng.byte();
        }
    }
}

/// Bytes of no plan, of 0 to 260; often with a header and lengths that let them come further.
pub fn wild_reply(rng: &mut Rng, interface: u32) -> Vec<u8> {
    let length = rng.index(261);
    let mut reply = rng.bytes(length);
    let way = rng.below(4);
    if way > 0 && length >= 20 {
        reply[..2].copy_from_slice(&[0x10, 0x04]);
        if way > 1 {
            reply[4..8].copy_from_slice(&interface.to_le_bytes());
        }
        if way > 2 {
            reply[16..18].copy_from_slice(&(length as u16 - 20).to_le_bytes());
            reply[19] = rng.pick(&[0, 0, 0, 1, 255]);
        }
    }
    reply
}

/// A number of the whole range, often at an edge.
fn wild_number(rng: &mut Rng) -> u32 {
    match rng.below(4) {
        0 => rng.u64() as u32,
        1 => rng.below(210) as u32,
        2 => rng.pick(&[0, 1, 2, 127, 128, 199, 200, 201, 255, 256]),
        _ => rng.pick(&[65_335, 65_535, 65_536, 65_736, 0x7FFF_FFFF, 0x8000_0000, u32::MAX - 200, u32::MAX - 1, u32::MAX]),
    }
}

/// A collector of any values.
pub fn wild_collector(rng: &mut Rng) -> Collector {
    let begun = rng.pick(&[0, 1, 1, 2, 256, 65_536, 0x8000_0000, u32::MAX]);
    let mut collector =
        Collector { function_id: rng.u64() as u32, held: wild_number(rng), total: wild_number(rng), begun, bytes: [0; 200] };
    rng.fill(&mut collector.bytes);
    collector
}

/// A reply for a wild collector: often one that makes its total, also where that is so only if the sum wraps.
pub fn reply_to_wild(rng: &mut Rng, collector: &Collector) -> Vec<u8> {
    let id = cases::alias(rng, collector.function_id);
    let wanted = if collector.begun == 0 { rng.pick(&[0, 20, 199, 200, 201]) } else { collector.total };
    let left = match rng.below(3) {
        0 => wanted.wrapping_sub(collector.held),
        1 => u32::from((wanted as u16).wrapping_sub(collector.held as u16)),
        _ => wild_number(rng),
    };
    let portion = match rng.below(4) {
        0 => 0,
        1 => left.min(200),
        _ => rng.below(u64::from(left.min(200)) + 1) as u32,
    };
    let bytes = rng.bytes(portion as usize);
    let mut reply = reply_for(id, portion as u16, left.saturating_sub(portion) as u16, &bytes);
    if rng.once_in(4) {
        spoil(rng, &mut reply);
    }
    reply
}
