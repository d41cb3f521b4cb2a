//! 02's 2/12, the collector: worked cases on the proved one and on the ordinary one, the expected outcome written by hand from
//! the paper; a run from the proved responder to the reader; and what a collector cannot see.

use compare::calls::{self, hex};
use compare::cases::{RECORD, Rng, seed_of};
use compare::collecting::{
    LENGTH, NOT_A_REPORT_REPLY, ORDINARY, OTHER_INTERFACE, PROVED, Side, TOTAL_DIFFERENT, TOTAL_OVER_200, ask, reply_for, serve,
};
use tdisp::host::{Collector, Taken};
use tdisp::{FunctionId, Range, Report};

// ---- By hand --------------------------------------------------------------------------------------------------------

/// 200 bytes of which neighbours differ, and none is zero.
fn whole() -> [u8; 200] {
    std::array::from_fn(|at| at as u8 + 1)
}

/// A right reply for 0100h with the bytes of `whole` from that place on.
fn cut(from: usize, portion: u16, remainder: u16) -> Vec<u8> {
    reply_for(0x0100, portion, remainder, &whole()[from..from + usize::from(portion)])
}

/// A reply for 0100h with so many zeros.
fn zeros(portion: u16, remainder: u16) -> Vec<u8> {
    reply_for(0x0100, portion, remainder, &vec![0; portion.into()])
}

/// A collector that is worked with, for 0100h.
struct Work<'a> {
    side: &'a Side,
    collector: Collector,
}

impl Work<'_> {
    fn for_interface(&mut self, function_id: u32) {
        self.collector = (self.side.new)(FunctionId(function_id));
    }

    fn takes(&mut self, reply: &[u8]) {
        let taken = (self.side.take)(self.collector, reply);
        assert_eq!(taken.number, 0, "{}: {}", self.side.name, hex(reply));
        self.collector = taken.collector;
    }

    /// "A refused reply leaves it as it was": byte for byte.
    fn refuses(&mut self, reply: &[u8], number: u32) {
        let taken = (self.side.take)(self.collector, reply);
        assert_eq!(taken.number, number, "{}: {}", self.side.name, hex(reply));
        assert_eq!(taken.collector, self.collector, "{}: {}", self.side.name, hex(reply));
    }

    /// It has the first bytes of a report, knows its total or not, and places past them are zero.
    fn has(&self, report: &[u8], total: Option<u32>) {
        let held = report.len() as u32;
        let Collector { held: count, total: expected, begun, bytes, .. } = self.collector;
        assert_eq!((count, (begun != 0).then_some(expected)), (held, total), "{}", self.side.name);
        assert_eq!(hex(&bytes[..report.len()]), hex(report), "{}", self.side.name);
        assert!(bytes[report.len()..].iter().all(|byte| *byte == 0), "{}: places past the bytes held", self.side.name);
        assert_eq!((self.side.bytes)(&self.collector), report, "{}", self.side.name);
        assert_eq!((self.side.next_offset)(&self.collector), held, "{}", self.side.name);
        assert_eq!((self.side.finished)(&self.collector), total == Some(held), "{}", self.side.name);
    }

    fn finished(&self) -> bool {
        (self.side.finished)(&self.collector)
    }
}

/// Works on the proved and on the ordinary collector, new and for 0100h.
fn both(work: impl Fn(&mut Work)) {
    for side in [&PROVED, &ORDINARY] {
        work(&mut Work { side, collector: (side.new)(FunctionId(0x0100)) });
    }
}

// ---- Worked cases ---------------------------------------------------------------------------------------------------

#[test]
fn a_new_collector_has_nothing_and_asks_at_0() {
    both(|work| {
        work.has(&[], None);
        assert!(!work.finished());
    });
}

#[test]
fn another_total_is_different() {
    both(|work| {
        work.takes(&cut(0, 0, 200));
        work.has(&[], Some(200));
        work.refuses(&cut(0, 0, 150), TOTAL_DIFFERENT);
        work.refuses(&cut(0, 0, 150), TOTAL_DIFFERENT);
        work.takes(&cut(0, 0, 200));
        work.has(&[], Some(200));
    });
}

#[test]
fn the_first_portion_twice_is_different() {
    both(|work| {
        work.takes(&cut(0, 128, 72));
        work.has(&whole()[..128], Some(200));
        // 128 held and 128 + 72 are 328.
        work.refuses(&cut(0, 128, 72), TOTAL_DIFFERENT);
        work.takes(&cut(128, 72, 0));
        work.has(&whole(), Some(200));
        assert!(work.finished());
    });
}

#[test]
fn a_first_total_of_201_is_over_200() {
    both(|work| {
        work.refuses(&cut(0, 128, 73), TOTAL_OVER_200);
        work.refuses(&cut(0, 0, 201), TOTAL_OVER_200);
        work.refuses(&zeros(201, 0), TOTAL_OVER_200);
        work.has(&[], None);
    });
}

#[test]
fn nothing_of_nothing_is_finished_at_0_bytes() {
    both(|work| {
        work.takes(&cut(0, 0, 0));
        work.has(&[], Some(0));
        assert!(work.finished());
        // The reader says of it what 01 says of an empty report.
        assert_eq!(tdisp::read_report(&(work.side.bytes)(&work.collector)).number, 20);
        work.refuses(&cut(0, 20, 0), TOTAL_DIFFERENT);
    });
}

#[test]
fn what_is_not_a_report_reply() {
    both(|work| {
        let right = cut(0, 10, 10);
        let with = |at: usize, byte: u8| {
            let mut other = right.clone();
            other[at] = byte;
            other
        };
        for length in 0..20 {
            work.refuses(&right[..length], NOT_A_REPORT_REPLY);
        }
        for version in [0x00, 0x01, 0x0F, 0x11, 0x20, 0x90] {
            work.refuses(&with(0, version), NOT_A_REPORT_REPLY);
        }
        for kind in [0x00, 0x01, 0x05, 0x07, 0x7F, 0x84, 0xFF] {
            work.refuses(&with(1, kind), NOT_A_REPORT_REPLY);
        }
        // A TDISP_ERROR with INVALID_INTERFACE_STATE, as it comes after a stop.
        let error = [&[0x10, 0x7F, 0, 0, 0x00, 0x01][..], &[0; 10], &[4, 0, 0, 0, 0, 0, 0, 0]].concat();
        work.refuses(&error, NOT_A_REPORT_REPLY);
        work.has(&[], None);
        work.takes(&right);
    });
}

#[test]
fn the_first_name_that_applies() {
    both(|work| {
        // All wrong at once, then one fault less each time.
        let mut wrong = reply_for(0x0101, 10, 300, &[0; 11]);
        wrong[1] = 0x05;
        work.refuses(&wrong, NOT_A_REPORT_REPLY);
        wrong[1] = 0x04;
        work.refuses(&wrong, OTHER_INTERFACE);
        wrong[4] = 0x00;
        work.refuses(&wrong, LENGTH);
        wrong.pop();
        work.refuses(&wrong, TOTAL_OVER_200);
        // With a total before, the same total of 310 is different first.
        work.takes(&cut(0, 0, 200));
        work.refuses(&wrong, TOTAL_DIFFERENT);
        work.refuses(&cut(0, 0, 201), TOTAL_DIFFERENT);
    });
}

#[test]
fn the_length_is_as_the_portion_says() {
    both(|work| {
        let reply = |length: usize| reply_for(0x0100, 10, 10, &whole()[..length]);
        for length in (0..=60).filter(|length| *length != 10) {
            work.refuses(&reply(length), LENGTH);
        }
        work.takes(&reply(10));
        work.has(&whole()[..10], Some(20));
        work.refuses(&reply(11), LENGTH);
    });
}

#[test]
fn two_hundred_bytes_in_cuts_of_1_7_and_128() {
    for size in [1, 7, 128] {
        both(|work| {
            for from in (0..200).step_by(size) {
                assert!(!work.finished());
                assert_eq!((work.side.next_offset)(&work.collector), from as u32);
                let portion = size.min(200 - from);
                work.takes(&cut(from, portion as u16, (200 - from - portion) as u16));
                work.has(&whole()[..from + portion], Some(200));
            }
            assert!(work.finished());
        });
    }
}

#[test]
fn a_report_without_ranges_and_information_is_one_portion_of_20() {
    both(|work| {
        work.takes(&zeros(20, 0));
        work.has(&[0; 20], Some(20));
        assert!(work.finished());
        assert_eq!(tdisp::read_report(&(work.side.bytes)(&work.collector)), Report::ZERO);
    });
}

#[test]
fn a_portion_of_0_moves_nothing_and_fixes_the_total() {
    both(|work| {
        work.takes(&cut(0, 0, 50));
        work.has(&[], Some(50));
        work.takes(&cut(0, 30, 20));
        work.takes(&cut(30, 0, 20));
        work.has(&whole()[..30], Some(50));
        work.refuses(&cut(30, 0, 21), TOTAL_DIFFERENT);
        work.takes(&cut(30, 20, 0));
        work.has(&whole()[..50], Some(50));
    });
}

#[test]
fn a_refused_first_reply_fixes_nothing() {
    both(|work| {
        work.refuses(&cut(0, 10, 10)[..19], NOT_A_REPORT_REPLY);
        work.refuses(&reply_for(0x0101, 10, 10, &[0; 10]), OTHER_INTERFACE);
        work.refuses(&reply_for(0x0100, 10, 10, &[0; 9]), LENGTH);
        work.refuses(&cut(0, 128, 73), TOTAL_OVER_200);
        work.has(&[], None);
        work.takes(&cut(0, 5, 50));
        work.has(&whole()[..5], Some(55));
    });
}

#[test]
fn after_the_last_portion() {
    both(|work| {
        work.takes(&cut(0, 40, 0));
        work.takes(&cut(0, 0, 0));
        work.has(&whole()[..40], Some(40));
        for (portion, remainder) in [(1, 0), (40, 0), (0, 1), (160, 0)] {
            work.refuses(&cut(0, portion, remainder), TOTAL_DIFFERENT);
        }
        work.takes(&cut(0, 0, 0));
        work.has(&whole()[..40], Some(40));
    });
}

#[test]
fn a_total_is_not_cut_to_16_bits() {
    both(|work| {
        // 65,536 and 65,736 are 0 and 200 in 16 bits; 65,535 twice is 131,070.
        work.refuses(&zeros(65_535, 1), TOTAL_OVER_200);
        work.refuses(&zeros(65_535, 65_535), TOTAL_OVER_200);
        work.takes(&cut(0, 2, 198));
        work.refuses(&zeros(65_535, 199), TOTAL_DIFFERENT);
        work.refuses(&zeros(199, 65_535), TOTAL_DIFFERENT);
        work.refuses(&zeros(65_535, 65_535), TOTAL_DIFFERENT);
        work.takes(&cut(2, 98, 100));
        work.refuses(&zeros(65_535, 101), TOTAL_DIFFERENT);
        work.has(&whole()[..100], Some(200));
    });
}

/// 01: "Two identities are equal when bits 15:0, bit 24 and, if bit 24 is set, bits 23:16 agree."
#[test]
fn its_interface_by_01s_equality() {
    both(|work| {
        let reply = |function_id| reply_for(function_id, 0, 20, &[]);
        // Bits 31:25 and a segment that is not marked, in the reply and in the collector.
        for own in [0x0000_0100, 0xFE00_0100, 0x00FF_0100, 0xFEAB_0100] {
            work.for_interface(own);
            for same in [0x0000_0100, 0xFE00_0100, 0x0005_0100, 0xFEFF_0100] {
                work.takes(&reply(same));
            }
            for other in [0x0000_0101, 0x0000_0000, 0x0100_0100, 0x01FF_0100, 0xFFFF_0100] {
                work.refuses(&reply(other), OTHER_INTERFACE);
            }
        }
        // A segment that is marked counts.
        for own in [0x0105_0100, 0xFF05_0100] {
            work.for_interface(own);
            for same in [0x0105_0100, 0xFF05_0100, 0x8105_0100] {
                work.takes(&reply(same));
            }
            for other in [0x0005_0100, 0x0104_0100, 0x0000_0100, 0x0105_0101, 0xFE05_0100] {
                work.refuses(&reply(other), OTHER_INTERFACE);
            }
        }
    });
}

#[test]
fn reserved_bytes_are_ignored() {
    both(|work| {
        let mut reply = cut(0, 20, 30);
        for at in [2, 3].into_iter().chain(8..16) {
            reply[at] = 0xA0 + at as u8;
        }
        work.takes(&reply);
        work.has(&whole()[..20], Some(50));
    });
}

#[test]
fn a_refused_reply_leaves_it_as_it_was() {
    both(|work| {
        for (from, portion) in [(0, 60), (60, 0), (60, 100), (160, 40)] {
            work.takes(&cut(from, portion, 200 - from as u16 - portion));
            let held = from + usize::from(portion);
            work.refuses(&[], NOT_A_REPORT_REPLY);
            work.refuses(&cut(0, 128, 72)[..19], NOT_A_REPORT_REPLY);
            work.refuses(&reply_for(0x0101, 4, 0, &[9; 4]), OTHER_INTERFACE);
            work.refuses(&reply_for(0x0100, 4, 0, &[9; 5]), LENGTH);
            work.refuses(&cut(0, 128, 73), TOTAL_DIFFERENT);
            work.refuses(&cut(0, 0, 201), TOTAL_DIFFERENT);
            work.has(&whole()[..held], Some(200));
        }
    });
}

// ---- From end to end ------------------------------------------------------------------------------------------------

/// Requester 0100h in CONFIG_UNLOCKED with eight ranges of 16 pages and 52 bytes of information: a report of 200 bytes.
fn fullest_record() -> Vec<u8> {
    let mut record = vec![0; RECORD];
    record[1] = 0x01;
    record[10] = 8;
    record[12..18].copy_from_slice(&[0x1E, 0, 0x34, 0x12, 0x78, 0x56]);
    record[20..24].copy_from_slice(&[0xF0, 0xDE, 0xBC, 0x9A]);
    for (index, place) in record[72..200].chunks_mut(16).enumerate() {
        place[0] = 0x10 * (index as u8 + 1);
        place[8] = 16;
        place[12] = 0x0F;
        place[14] = index as u8;
    }
    record[200] = 52;
    for (at, byte) in record[204..].iter_mut().enumerate() {
        *byte = 0xA0 + at as u8;
    }
    record
}

/// A lock for 0100h on stream 3.
fn lock(flags: u8, offset: i64) -> Vec<u8> {
    [&[0x10, 0x83, 0, 0, 0x00, 0x01][..], &[0; 10], &[flags, 0, 3, 0], &offset.to_le_bytes(), &[0; 8]].concat()
}

/// Locks, asks at the collector's OFFSETs, collects and reads, with the proved of each; the start comes between.
#[test]
fn from_the_responder_to_the_reader() {
    let mut rng = Rng::new(seed_of("from the responder to the reader"));
    let mut table = fullest_record();
    let mut serve = |request: Vec<u8>| serve(&calls::PROVED, &mut rng, request, &mut table);
    let locked = serve(lock(5, -4096));
    assert_eq!(locked[1], 0x03);

    let collector = Collector::new(FunctionId(0x0100));
    assert_eq!(collector.next_offset(), 0);
    let first = serve(ask(0x0100, 0, 65_535));
    assert_eq!(hex(&first[..20]), "10 04 00 00 00 01 00 00 00 00 00 00 00 00 00 00 80 00 48 00");
    let Taken { number, collector } = collector.take(&first);
    assert_eq!((number, collector.finished(), collector.next_offset()), (0, false, 128));

    let start = [&[0x10, 0x86, 0, 0, 0x00, 0x01][..], &[0; 10], &locked[16..]].concat();
    assert_eq!(serve(start)[1], 0x06);
    let second = serve(ask(0x0100, 128, 65_535));
    assert_eq!(hex(&second[..20]), "10 04 00 00 00 01 00 00 00 00 00 00 00 00 00 00 48 00 00 00");
    let Taken { number, collector } = collector.take(&second);
    assert_eq!((number, collector.finished(), collector.next_offset()), (0, true, 200));

    let mut fields = Report { info: 0x1F, msix: 0x1234, lnr: 0x5678, tph: 0x9ABC_DEF0, n: 8, l: 52, ..Report::ZERO };
    fields.ranges = std::array::from_fn(|index| Range {
        first: 0x10 * (index as u64 + 1) - 1,
        pages: 16,
        attributes: 0x0F,
        id: index as u16,
    });
    fields.information = std::array::from_fn(|at| 0xA0 + at as u8);
    assert_eq!(tdisp::read_report(collector.bytes().as_slice()), fields);
}

// ---- What a collector cannot see ------------------------------------------------------------------------------------

/// A reply carries no OFFSET: a first portion asked elsewhere fits, and so do those asked as far behind it. What is collected
/// then is the end of the report, and the reader may even accept it.
#[test]
fn portions_asked_elsewhere_that_fit_are_taken() {
    both(|work| {
        let mut rng = Rng::new(seed_of("portions asked elsewhere"));
        let mut table = fullest_record();
        table[236..].fill(0);
        let mut serve = |request: Vec<u8>| serve(&calls::PROVED, &mut rng, request, &mut table);
        assert_eq!(serve(lock(0, 0))[1], 0x03);
        let report = [&serve(ask(0x0100, 0, 65_535))[20..], &serve(ask(0x0100, 128, 65_535))[20..]].concat();

        // From OFFSET 20 on: 180 bytes, which the reader refuses.
        work.takes(&serve(ask(0x0100, 20, 100)));
        work.takes(&serve(ask(0x0100, 120, 100)));
        work.has(&report[20..], Some(180));
        assert!(work.finished());
        assert_ne!(tdisp::read_report(&(work.side.bytes)(&work.collector)).number, 0);

        // From OFFSET 180 on: twenty zeros of the information, which are a report.
        work.for_interface(0x0100);
        work.takes(&serve(ask(0x0100, 180, 65_535)));
        work.has(&[0; 20], Some(20));
        assert!(work.finished());
        assert_eq!(tdisp::read_report(&(work.side.bytes)(&work.collector)), Report::ZERO);
    });
}

/// Once a reply to OFFSET 0 was taken, even with a portion of 0, the replies of that lock to any other OFFSET than the next are
/// told by their total: the bytes held and all from that OFFSET on.
#[test]
fn after_offset_0_only_the_next_offset_fits() {
    both(|work| {
        let mut rng = Rng::new(seed_of("only the next OFFSET fits"));
        let mut table = fullest_record();
        let mut serve = |request: Vec<u8>| serve(&calls::PROVED, &mut rng, request, &mut table);
        assert_eq!(serve(lock(0, 0))[1], 0x03);
        for held in [0, 1, 50, 128, 199] {
            work.for_interface(0x0100);
            work.takes(&serve(ask(0x0100, 0, 0)));
            for offset in 0..held {
                work.takes(&serve(ask(0x0100, offset, 1)));
            }
            for offset in (0..200).filter(|offset| *offset != held) {
                for length in [0, 1, 65_535] {
                    work.refuses(&serve(ask(0x0100, offset, length)), TOTAL_DIFFERENT);
                }
            }
            work.takes(&serve(ask(0x0100, held, 1)));
        }
    });
}

/// "one lock stands from first to last": a new lock between two portions is not seen. What is collected then is of both:
/// INTERFACE_INFO and the MSI-X control from the first, the ranges from the second.
#[test]
fn a_new_lock_between_portions_is_not_seen() {
    both(|work| {
        let mut rng = Rng::new(seed_of("a new lock between portions"));
        let mut table = fullest_record();
        let mut serve = |request: Vec<u8>| serve(&calls::PROVED, &mut rng, request, &mut table);
        assert_eq!(serve(lock(1, 0))[1], 0x03);
        work.takes(&serve(ask(0x0100, 0, 16)));
        assert_eq!(serve([&[0x10, 0x87, 0, 0, 0x00, 0x01][..], &[0; 10]].concat())[1], 0x07);
        assert_eq!(serve(lock(4, 4096))[1], 0x03);
        work.takes(&serve(ask(0x0100, 16, 128)));
        work.takes(&serve(ask(0x0100, 144, 128)));
        assert!(work.finished());
        let read = tdisp::read_report(&(work.side.bytes)(&work.collector));
        assert_eq!((read.number, read.info, read.msix), (0, 0x1F, 0));
        assert_eq!(read.ranges[0], Range { first: 0x11, pages: 16, attributes: 0x0F, id: 0 });
    });
}
