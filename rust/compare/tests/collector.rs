//! 02's 2/12, the collector: the proved one against the ordinary one, on reports cut in many ways, on wild replies and on wild
//! collectors: the number, every field, the next OFFSET, whether it is finished, the bytes. A difference prints the seed, the
//! reply and the collector before and after, and fails. Wrong collectors show that the comparison can fail.
//!
//! TDISP_SEED sets another seed (a number, or "fresh").

use compare::calls::{self, Call, hex};
use compare::cases::{self, RECORD, Rng, say, seed_of};
use compare::collecting::{
    LENGTH, NOT_A_REPORT_REPLY, ORDINARY, OTHER_INTERFACE, PROVED, Side, TOTAL_DIFFERENT, TOTAL_OVER_200, any_interface, ask,
    filled, meant_by, number_of, reply_for, reply_to_wild, right_reply, serve, spoil, wild_collector, wild_reply,
};
use compare::collector::Collector as Ordinary;
use std::collections::BTreeMap;
use tdisp::FunctionId;
use tdisp::host::{Collector, Taken};

// How much each comparison does: rounds over all totals and cuts; replies. The sweeps add some 470,000.
const CUT_ROUNDS: u64 = 6;
const WILD_REPLIES: u64 = 300_000;
const SPOILED_REPLIES: u64 = 400_000;
const WILD_COLLECTORS: u64 = 400_000;

/// All of a collector: four numbers and 200 bytes, nothing between them.
const _: () = assert!(size_of::<Collector>() == 216);

// ---- The comparison -------------------------------------------------------------------------------------------------

/// A collector of the side that is compared, and the ordinary one with the same past.
struct Pair {
    one: Collector,
    other: Ordinary,
}

/// Gives both the same replies, compares all that comes of them, and keeps what it saw.
struct Compare<'a> {
    side: &'a Side,
    test: &'static str,
    seed: u64,
    replies: u64,
    seen: BTreeMap<&'static str, u64>,
}

impl<'a> Compare<'a> {
    fn new(test: &'static str, side: &'a Side, seed: u64) -> Compare<'a> {
        Compare { side, test, seed, replies: 0, seen: BTreeMap::new() }
    }

    /// The next case has a seed of its own.
    fn next_case(&self) -> Rng {
        Rng::new(self.seed.wrapping_add(self.replies.wrapping_mul(0x5851_F42D_4C95_7F2D)))
    }

    fn new_pair(&self, interface: FunctionId) -> Result<Pair, String> {
        let pair = Pair { one: (self.side.new)(interface), other: Ordinary::new(interface) };
        self.alike(&pair).map(|()| pair)
    }

    fn pair_of(&self, collector: Collector) -> Result<Pair, String> {
        let pair = Pair { one: collector, other: meant_by(&collector) };
        self.alike(&pair).map(|()| pair)
    }

    /// Gives the number that both gave. A difference is an error, and so is a refusal that left something changed.
    fn take(&mut self, pair: &mut Pair, reply: &[u8]) -> Result<u32, String> {
        let before = pair.one;
        let Taken { number, collector } = (self.side.take)(before, reply);
        let ordinary = number_of(pair.other.take(reply));
        pair.one = collector;
        let stays = number == 0 || collector == before;
        if number == ordinary && stays {
            self.alike(pair)
        } else {
            Err(format!("{}: number {number}, ordinary: number {ordinary}; as it was: {stays}", self.side.name))
        }
        .map_err(|what| {
            format!(
                "{}, reply {} of seed {:#018x}: {what}\nreply ({}): {}\nbefore: {before:?}\nafter: {collector:?}",
                self.test,
                self.replies,
                self.seed,
                reply.len(),
                hex(reply)
            )
        })?;
        self.replies += 1;
        self.count(number_label(number));
        Ok(number)
    }

    /// Every field, and what the two say of themselves. What `total` holds before a first reply means nothing.
    fn alike(&self, pair: &Pair) -> Result<(), String> {
        let Pair { one, other } = pair;
        let fields = (one.function_id, one.held, (one.begun != 0).then_some(one.total));
        let said = ((self.side.next_offset)(one), (self.side.finished)(one), (self.side.bytes)(one));
        let same = fields == (other.interface.0, other.held, other.total)
            && one.bytes == other.places
            && (said.0, said.1, &said.2[..]) == (other.next_offset(), other.is_finished(), other.bytes());
        if same { Ok(()) } else { Err(format!("{}: {one:?}\n  says {said:?}\nordinary: {other:?}", self.side.name)) }
    }

    fn count(&mut self, what: &'static str) {
        *self.seen.entry(what).or_default() += 1;
    }

    /// Prints what was seen. A run that never met one of these would show little.
    fn done(self, expected: &[&str]) {
        let seen: Vec<String> = self.seen.iter().map(|(what, count)| format!("{what}: {count}")).collect();
        say(&format!("collector, {}: {} replies, no difference ({})", self.test, self.replies, seen.join(", ")));
        for what in expected {
            assert!(self.seen.contains_key(what), "{}: never met: {what}", self.test);
        }
    }
}

fn number_label(number: u32) -> &'static str {
    match number {
        0 => "taken",
        NOT_A_REPORT_REPLY => "not a report reply",
        OTHER_INTERFACE => "other interface",
        LENGTH => "length",
        TOTAL_DIFFERENT => "total different",
        TOTAL_OVER_200 => "total over 200",
        _ => "a number of no name",
    }
}

const EVERY_NUMBER: [&str; 6] = ["taken", "not a report reply", "other interface", "length", "total different", "total over 200"];

/// A comparison, of that amount. Gives the first difference as an error.
type Check = fn(&mut Compare, u64) -> Result<(), String>;

fn no_difference(test: &'static str, check: Check, amount: u64, expected: &[&str]) {
    let mut compare = Compare::new(test, &PROVED, seed_of(test));
    check(&mut compare, amount).unwrap_or_else(|what| panic!("{what}"));
    compare.done(expected);
}

// ---- Reports cut in many ways ---------------------------------------------------------------------------------------

/// The LENGTHs that a host asks for.
#[derive(Clone, Copy, Debug)]
enum Cut {
    Each(u16),
    AnyAbove0,
    Any,
}

const CUTS: [Cut; 7] = [Cut::Each(1), Cut::Each(7), Cut::Each(20), Cut::Each(128), Cut::Each(65_535), Cut::AnyAbove0, Cut::Any];

impl Cut {
    fn length(self, rng: &mut Rng) -> u16 {
        match self {
            Cut::Each(length) => length,
            Cut::AnyAbove0 => match rng.below(3) {
                0 => rng.pick(&[1, 2, 127, 128, 129, 200, 256, 65_535]),
                _ => 1 + rng.below(40) as u16,
            },
            Cut::Any if rng.once_in(3) => 0,
            Cut::Any => Cut::AnyAbove0.length(rng),
        }
    }

    /// How often a report of that total is asked for at the most, if no LENGTH is 0.
    fn most_asks(self, total: usize) -> Option<usize> {
        match self {
            Cut::Each(length) => Some(total.div_ceil(128.min(length.into()))),
            Cut::AnyAbove0 => Some(total),
            Cut::Any => None,
        }
    }
}

/// Calls of all kinds that leave the lock, the start with its nonce among them.
fn others_between(
    compare: &mut Compare,
    responder: &calls::Side,
    rng: &mut Rng,
    table: &mut Vec<u8>,
    place: usize,
    start: &[u8],
) {
    for _ in 0..rng.pick(&[0, 0, 1, 2]) {
        let call = match rng.below(12) {
            0 => cases::lent(rng, start.to_vec()),
            _ => {
                let calm = rng.once_in(2);
                cases::call(rng, table, calm)
            }
        };
        let mut after = table.clone();
        let outcome = responder.run(&call, &mut after);
        let (old, new) = (table[place + 4], after[place + 4]);
        if new == 1 || new == 2 {
            compare.count("calls between that left the lock");
            match &call {
                _ if old == 1 && new == 2 => compare.count("starts between"),
                Call::Respond { .. } => {}
                Call::RegisterWrite { .. } => compare.count("register writes between"),
                Call::Firmware => compare.count("firmware questions between"),
                Call::StreamDown(_) | Call::SessionEnd(_) | Call::Multicast => compare.count("events between"),
            }
            if outcome.number != 0 {
                compare.count("refused calls between");
            }
            *table = after;
        }
    }
}

/// One report of that total from one responder, asked for in portions at the collector's OFFSETs while its lock stands: every
/// reply is taken until it is finished, in as few asks as it must be; finished, it is the whole report, and the reader gives the
/// record's fields.
fn collect(compare: &mut Compare, responder: &calls::Side, rng: &mut Rng, total: usize, cuts: Cut) -> Result<Vec<u8>, String> {
    let (mut table, place) = cases::table_reporting(rng, total);
    let unlocked = table[place..place + RECORD].to_vec();
    let id = cases::function_id(&unlocked);
    let lock = cases::good_lock(rng, &unlocked);
    let locked = serve(responder, rng, lock.clone(), &mut table);
    assert_eq!(locked[1], 0x03, "{}: an accepted lock", responder.name);
    let start = [&[0x10, 0x86, 0, 0][..], &id.to_le_bytes(), &[0; 8], &locked[16..]].concat();

    let mut pair = compare.new_pair(FunctionId(cases::alias(rng, id)))?;
    let mut asks = 0;
    while !(compare.side.finished)(&pair.one) {
        others_between(compare, responder, rng, &mut table, place, &start);
        let offset = (compare.side.next_offset)(&pair.one);
        let request = ask(cases::alias(rng, id), offset as u16, cuts.length(rng));
        let reply = serve(responder, rng, request, &mut table);
        let number = compare.take(&mut pair, &reply)?;
        asks += 1;
        if number != 0 || offset as usize >= total || asks > 10 * total {
            return Err(format!("ask {asks} of a report of {total} in {cuts:?} at OFFSET {offset}: number {number}"));
        }
    }
    if cuts.most_asks(total).is_some_and(|most| asks > most) {
        return Err(format!("{asks} asks for a report of {total} in {cuts:?}"));
    }

    // The whole report by plain requests: 128 bytes, and the rest if there is one.
    let mut report = Vec::new();
    for offset in (0..total).step_by(128) {
        let reply = serve(responder, rng, ask(id, offset as u16, 65_535), &mut table);
        report.extend_from_slice(&reply[20..]);
    }
    let bytes = (compare.side.bytes)(&pair.one);
    if bytes != report || bytes.len() != total {
        return Err(format!("collected {}\nreport    {}", hex(&bytes), hex(&report)));
    }
    let (read, fields) = ((responder.read_report)(&bytes), cases::reported(&unlocked, &lock));
    if read != fields {
        return Err(format!("read {read:?}\nthe record's {fields:?}"));
    }
    compare.count("reports collected");
    Ok(bytes)
}

/// Every total from 20 to 200, in every kind of cut, from both responders.
fn check_cuts(compare: &mut Compare, rounds: u64) -> Result<(), String> {
    for _ in 0..rounds {
        for total in 20..=200 {
            for cuts in CUTS {
                let rng = compare.next_case();
                let proved = collect(compare, &calls::PROVED, &mut rng.clone(), total, cuts)?;
                let ordinary = collect(compare, &calls::ORDINARY, &mut rng.clone(), total, cuts)?;
                assert_eq!(hex(&proved), hex(&ordinary), "the two responders");
            }
        }
    }
    Ok(())
}

#[test]
fn reports_cut_in_many_ways() {
    let expected = [
        "taken",
        "reports collected",
        "calls between that left the lock",
        "starts between",
        "register writes between",
        "firmware questions between",
        "events between",
        "refused calls between",
    ];
    no_difference("reports cut in many ways", check_cuts, CUT_ROUNDS, &expected);
}

// ---- Wild replies ---------------------------------------------------------------------------------------------------

fn check_wild_replies(compare: &mut Compare, replies: u64) -> Result<(), String> {
    while compare.replies < replies {
        let mut rng = compare.next_case();
        let interface = any_interface(&mut rng);
        let mut pair = compare.pair_of(filled(&mut rng, interface))?;
        for _ in 0..4 {
            let reply = wild_reply(&mut rng, interface);
            compare.take(&mut pair, &reply)?;
        }
    }
    Ok(())
}

#[test]
fn wild_replies() {
    no_difference("wild replies", check_wild_replies, WILD_REPLIES, &EVERY_NUMBER);
}

/// Replies one after another, most of them right ones that were spoiled in one place.
fn check_spoiled_replies(compare: &mut Compare, replies: u64) -> Result<(), String> {
    while compare.replies < replies {
        let mut rng = compare.next_case();
        let interface = any_interface(&mut rng);
        let mut pair = match rng.below(2) {
            0 => compare.new_pair(FunctionId(interface))?,
            _ => compare.pair_of(filled(&mut rng, interface))?,
        };
        for _ in 0..8 {
            let mut reply = right_reply(&mut rng, &pair.one);
            let spoiled = !rng.once_in(3);
            if spoiled {
                spoil(&mut rng, &mut reply);
            }
            let number = compare.take(&mut pair, &reply)?;
            if !spoiled && number != 0 {
                return Err(format!("a right reply got number {number}: {}", hex(&reply)));
            }
        }
    }
    Ok(())
}

#[test]
fn replies_spoiled_in_one_place() {
    no_difference("replies spoiled in one place", check_spoiled_replies, SPOILED_REPLIES, &EVERY_NUMBER);
}

/// Every pair of portion and remainder about the limits, with a byte too few, as many as said and one too many, to collectors of
/// every count with totals about theirs and about the limits. `step` leaves counts out.
fn check_pairs(compare: &mut Compare, step: u64) -> Result<(), String> {
    let edges = [0, 1, 72, 127, 128, 129, 199, 200, 201, 65_535];
    let mut bytes = [0; 200];
    Rng::new(compare.seed).fill(&mut bytes);
    for (portion, remainder) in edges.iter().flat_map(|portion| edges.map(|remainder| (*portion, remainder))) {
        let length = usize::from(portion);
        let replies: Vec<Vec<u8>> = [length.wrapping_sub(1), length, length + 1]
            .into_iter()
            .filter(|length| *length <= 65_536)
            .map(|length| reply_for(0x0100, portion, remainder, &vec![0xC3; length]))
            .collect();
        for held in (0..=200u32).step_by(step as usize) {
            let sum = held + u32::from(portion) + u32::from(remainder);
            let mut begun = Collector { function_id: 0x0100, held, total: 0, begun: 1, bytes: [0; 200] };
            begun.bytes[..held as usize].copy_from_slice(&bytes[..held as usize]);
            let with = |total: u32| Collector { total, ..begun };
            let new = Collector { begun: 0, ..begun };
            for collector in [new, with(sum), with(sum + 1), with(sum & 0xFFFF), with(held), with(200), with(201)] {
                for reply in &replies {
                    let mut pair = compare.pair_of(collector)?;
                    compare.take(&mut pair, reply)?;
                }
            }
        }
    }
    Ok(())
}

#[test]
fn portions_and_remainders_about_the_limits() {
    let expected = ["taken", "length", "total different", "total over 200"];
    no_difference("portions and remainders about the limits", check_pairs, 1, &expected);
}

/// Every byte of a right reply with every value; every length to 260; identities one bit away, with and without a marked segment.
fn check_sweeps(compare: &mut Compare, _: u64) -> Result<(), String> {
    for id in [0x0000_0100u32, 0x0100_0100, 0x0105_0100, 0x01FF_FFFF] {
        let new = Collector { function_id: id, held: 0, total: 0, begun: 0, bytes: [0; 200] };
        let mut begun = Collector { held: 40, total: 70, begun: 1, ..new };
        begun.bytes[..40].fill(0x5A);
        for collector in [new, begun] {
            let right = reply_for(id, 10, 20, &[0xC3; 10]);
            for at in 0..right.len() {
                for value in 0..=255 {
                    let mut reply = right.clone();
                    reply[at] = value;
                    compare.take(&mut compare.pair_of(collector)?, &reply)?;
                }
            }
            let longest = [&right[..], &[0x99; 260]].concat();
            for length in 0..=260 {
                let mut reply = longest[..length].to_vec();
                compare.take(&mut compare.pair_of(collector)?, &reply)?;
                // And with the portion that it has.
                if length >= 20 {
                    reply[16] = (length - 20) as u8;
                    compare.take(&mut compare.pair_of(collector)?, &reply)?;
                }
            }
            for other in [0, 0xFE00_0000, 0x00FF_0000, 0x01FF_0000].into_iter().chain((0..32).map(|bit| 1 << bit)) {
                let reply = reply_for(id ^ other, 10, 20, &[0xC3; 10]);
                compare.take(&mut compare.pair_of(collector)?, &reply)?;
                let other = Collector { function_id: id ^ other, ..collector };
                compare.take(&mut compare.pair_of(other)?, &right)?;
            }
        }
    }
    Ok(())
}

#[test]
fn every_byte_length_and_identity_bit() {
    no_difference("every byte, length and identity bit", check_sweeps, 0, &EVERY_NUMBER);
}

// ---- Wild collectors ------------------------------------------------------------------------------------------------

fn check_wild_collectors(compare: &mut Compare, replies: u64) -> Result<(), String> {
    while compare.replies < replies {
        let mut rng = compare.next_case();
        let collector = wild_collector(&mut rng);
        let mut pair = compare.pair_of(collector)?;
        if (compare.side.bytes)(&collector).len() != 200.min(collector.held as usize) {
            return Err(format!("the bytes of {collector:?}"));
        }
        for _ in 0..3 {
            let reply = reply_to_wild(&mut rng, &pair.one);
            let held = pair.one.held;
            let number = compare.take(&mut pair, &reply)?;
            if held > 200 {
                compare.count("collectors that say they have more than 200");
                if number == 0 {
                    return Err(format!("a reply taken past 200 bytes: {}", hex(&reply)));
                }
            }
        }
    }
    Ok(())
}

#[test]
fn wild_collectors() {
    let expected = [&EVERY_NUMBER[..], &["collectors that say they have more than 200"]].concat();
    no_difference("wild collectors", check_wild_collectors, WILD_COLLECTORS, &expected);
}

// ---- Wrong collectors do not pass -----------------------------------------------------------------------------------

/// The comparisons with smaller amounts.
const CHECKS: [(&str, Check, u64); 6] = [
    ("cuts", check_cuts, 1),
    ("wild replies", check_wild_replies, 20_000),
    ("spoiled replies", check_spoiled_replies, 20_000),
    ("pairs", check_pairs, 10),
    ("sweeps", check_sweeps, 0),
    ("wild collectors", check_wild_collectors, 20_000),
];

/// The comparisons in which the side differs from the ordinary collector.
fn differs_in(side: &Side) -> Vec<&'static str> {
    let seed = seed_of(side.name);
    let differs = |(_, check, amount): &&(&str, Check, u64)| check(&mut Compare::new(side.name, side, seed), *amount).is_err();
    CHECKS.iter().filter(differs).map(|(name, ..)| *name).collect()
}

/// Another way to take a reply. It differs in these comparisons at the least.
fn fails(name: &'static str, take: fn(Collector, &[u8]) -> Taken, least: &[&str]) {
    let differs = differs_in(&Side { name, take, ..ORDINARY });
    say(&format!("collector, {name}: differs in {}", differs.join(", ")));
    for check in least {
        assert!(differs.contains(check), "{name} passed {check}");
    }
}

/// What a wrong collector is made of is not wrong itself.
#[test]
fn the_ordinary_one_passes() {
    assert!(differs_in(&ORDINARY).is_empty());
}

fn portion_of(reply: &[u8]) -> u32 {
    u16::from_le_bytes([reply[16], reply[17]]).into()
}

fn remainder_of(reply: &[u8]) -> u32 {
    u16::from_le_bytes([reply[18], reply[19]]).into()
}

/// The total is portion plus remainder.
#[test]
fn forgetting_the_bytes_held_fails() {
    let take = |before: Collector, reply: &[u8]| {
        let Taken { number, collector } = (ORDINARY.take)(Collector { held: 0, ..before }, reply);
        if number != 0 {
            return Taken { number, collector: before };
        }
        let held = before.held.wrapping_add(portion_of(reply));
        let mut bytes = before.bytes;
        if let Some(places) = bytes.get_mut(before.held as usize..held as usize) {
            places.copy_from_slice(&reply[20..]);
        }
        Taken { number, collector: Collector { held, bytes, ..collector } }
    };
    fails("forgets the bytes held", take, &["cuts", "spoiled replies", "pairs", "wild collectors"]);
}

/// "Before" is the last reply, taken or not.
#[test]
fn comparing_with_the_last_reply_fails() {
    let take = |before: Collector, reply: &[u8]| {
        let mut taken = (ORDINARY.take)(before, reply);
        if taken.number == TOTAL_DIFFERENT {
            taken.collector.total = before.held.wrapping_add(portion_of(reply) + remainder_of(reply));
        }
        taken
    };
    fails("compares with the last reply", take, &["wild replies", "spoiled replies", "pairs"]);
}

/// A reply refused for its total has moved the count.
#[test]
fn moving_the_count_beside_a_refusal_fails() {
    let take = |before: Collector, reply: &[u8]| {
        let mut taken = (ORDINARY.take)(before, reply);
        if taken.number == TOTAL_DIFFERENT || taken.number == TOTAL_OVER_200 {
            taken.collector.held = before.held.wrapping_add(portion_of(reply));
        }
        taken
    };
    fails("moves the count beside a refusal", take, &["wild replies", "spoiled replies", "pairs"]);
}

/// A refused first reply has fixed the total.
#[test]
fn fixing_the_total_beside_a_refusal_fails() {
    let take = |before: Collector, reply: &[u8]| {
        let mut taken = (ORDINARY.take)(before, reply);
        if taken.number == TOTAL_OVER_200 && before.begun == 0 {
            let total = before.held.wrapping_add(portion_of(reply) + remainder_of(reply));
            taken.collector = Collector { begun: 1, total, ..before };
        }
        taken
    };
    fails("fixes the total beside a refusal", take, &["wild replies", "spoiled replies", "pairs"]);
}

/// A portion of 0 is passed over, and fixes no total.
#[test]
fn passing_over_a_portion_of_0_fails() {
    let take = |before: Collector, reply: &[u8]| match (ORDINARY.take)(before, reply) {
        taken if taken.number == 0 && portion_of(reply) == 0 => Taken { collector: before, ..taken },
        taken => taken,
    };
    fails("passes over a portion of 0", take, &["cuts", "spoiled replies", "pairs"]);
}

/// Takes what is refused for its total if that total, cut short, is right.
fn with_total_cut(before: Collector, reply: &[u8], cut: fn(u32) -> u32) -> Taken {
    let taken = (ORDINARY.take)(before, reply);
    if taken.number != TOTAL_DIFFERENT && taken.number != TOTAL_OVER_200 {
        return taken;
    }
    let total = cut(before.held.wrapping_add(portion_of(reply) + remainder_of(reply)));
    if total > 200 || (before.begun != 0 && before.total != total) {
        return taken;
    }
    let held = before.held.wrapping_add(portion_of(reply));
    Taken { number: 0, collector: Collector { held, total, begun: 1, ..before } }
}

#[test]
fn adding_in_16_bits_fails() {
    let take = |before: Collector, reply: &[u8]| with_total_cut(before, reply, |sum| sum & 0xFFFF);
    fails("adds in 16 bits", take, &["pairs", "wild collectors"]);
}

#[test]
fn adding_in_32_bits_fails() {
    let take = |before: Collector, reply: &[u8]| with_total_cut(before, reply, |sum| sum);
    fails("adds in 32 bits", take, &["wild collectors"]);
}

/// Over 200 is asked before different.
#[test]
fn asking_for_200_first_fails() {
    let take = |before: Collector, reply: &[u8]| {
        let mut taken = (ORDINARY.take)(before, reply);
        if taken.number == TOTAL_DIFFERENT && u64::from(before.held) + u64::from(portion_of(reply) + remainder_of(reply)) > 200 {
            taken.number = TOTAL_OVER_200;
        }
        taken
    };
    fails("asks for 200 first", take, &["wild replies", "spoiled replies", "pairs"]);
}

/// "Comparing a segment marked not valid."
#[test]
fn comparing_an_unmarked_segment_fails() {
    let take = |before: Collector, reply: &[u8]| match (ORDINARY.take)(before, reply) {
        taken if taken.number != NOT_A_REPORT_REPLY && reply[6] != before.function_id.to_le_bytes()[2] => {
            Taken { number: OTHER_INTERFACE, collector: before }
        }
        taken => taken,
    };
    fails("compares an unmarked segment", take, &["cuts", "spoiled replies", "sweeps"]);
}

/// Bytes behind the portion are passed over.
#[test]
fn taking_a_longer_reply_fails() {
    let take = |before: Collector, reply: &[u8]| match (ORDINARY.take)(before, reply) {
        taken if taken.number == LENGTH && reply.len() > 20 + portion_of(reply) as usize => {
            (ORDINARY.take)(before, &reply[..20 + portion_of(reply) as usize])
        }
        taken => taken,
    };
    fails("takes a longer reply", take, &["wild replies", "spoiled replies", "pairs", "sweeps"]);
}
