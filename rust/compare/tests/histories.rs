//! Demand 3 on random histories, of the proved responder (through the archive) and of the ordinary one: RUN exactly when, and the
//! swap; and 02's 1/12, the report while a lock stands. Both get the same generator and the same assertions. What a history says is told from the calls and what came back,
//! never from the table. Wrong responders show that the checks can fail.
//!
//! Demand 3: from an accepted table with all interfaces in CONFIG_UNLOCKED, after any history of calls, refused ones
//! included: an interface is in RUN exactly when it had an accepted lock, later a served, well-formed start naming it with
//! that lock's nonce, and since that lock no accepted stop naming it and no served change that 01 sends to ERROR.
//! Neighbouring calls that name different interfaces may be swapped: same replies, same final table.
//!
//! 02, 1/12, of the report: "Allow states 1 and 2; states 0 and 3 still get 04h. ... The bytes are the same in both states, because
//! a report shows how the interface was locked."

use compare::calls::{Call, ORDINARY, Outcome, PROVED, Side, hex};
use compare::cases::{self, RECORD, Rng, function_id, say, seed_of};
use compare::ordinary;
use std::collections::BTreeMap;
use tdisp::{FunctionId, Session};

const HISTORIES: u64 = 3_000;
const CALLS: usize = 60;
const REPORT_HISTORIES: u64 = 1_000;
const SWAPS: u64 = 100_000;
const SWAP_HISTORIES: u64 = 500;
const SWAP_CALLS: usize = 30;

/// Each check as a test of its own for each responder.
macro_rules! of_each_responder {
    ($($check:ident)*) => {
        mod proved_responder {
            $(#[test] fn $check() { super::$check(&super::PROVED) })*
        }
        mod ordinary_responder {
            $(#[test] fn $check() { super::$check(&super::ORDINARY) })*
        }
    };
}

of_each_responder! { run_exactly_when a_lock_has_one_report neighbours_may_be_swapped histories_with_a_swap_end_alike }

// ---- What a call names and what came of it --------------------------------------------------------------------------

/// "Two identities are equal when bits 15:0, bit 24 and, if bit 24 is set, bits 23:16 agree."
fn same(a: u32, b: u32) -> bool {
    let bits = |id: u32, high: u32, low: u32| id >> low & ((1 << (high - low + 1)) - 1);
    bits(a, 15, 0) == bits(b, 15, 0)
        && bits(a, 24, 24) == bits(b, 24, 24)
        && (bits(a, 24, 24) == 0 || bits(a, 23, 16) == bits(b, 23, 16))
}

/// Whom a call concerns, for the swap.
#[derive(Clone, Copy)]
enum Named {
    Interface(u32),
    Nobody,
    /// Device-wide events, class 10 among them, and the firmware question: they are not swapped.
    Everybody,
}

fn named(call: &Call) -> Named {
    match call {
        Call::Respond { request, .. } => match request.get(4..16) {
            Some(id) => Named::Interface(u32::from_le_bytes(id[..4].try_into().unwrap())),
            None => Named::Nobody,
        },
        Call::RegisterWrite { class: 10, .. } => Named::Everybody,
        Call::RegisterWrite { function_id, .. } => Named::Interface(function_id.0),
        Call::StreamDown(_) | Call::SessionEnd(_) | Call::Multicast | Call::Firmware => Named::Everybody,
    }
}

fn may_swap(a: &Call, b: &Call) -> bool {
    match (named(a), named(b)) {
        (Named::Everybody, _) | (_, Named::Everybody) => false,
        (Named::Nobody, _) | (_, Named::Nobody) => true,
        (Named::Interface(a), Named::Interface(b)) => !same(a, b),
    }
}

/// One call of a history with what came back.
struct Event {
    call: Call,
    outcome: Outcome,
}

impl Event {
    /// The bytes of a served request that names the interface.
    fn served_request(&self, interface: u32) -> Option<&[u8]> {
        match (&self.call, named(&self.call)) {
            (Call::Respond { request, .. }, Named::Interface(id)) if self.outcome.number == 0 && same(id, interface) => {
                Some(request)
            }
            _ => None,
        }
    }

    /// Whether it is an accepted lock: 83h that got 03h.
    fn is_lock(&self) -> bool {
        match &self.call {
            Call::Respond { request, .. } => self.outcome.number == 0 && request[1] == 0x83 && self.outcome.reply[1] == 0x03,
            _ => false,
        }
    }

    /// The interface's accepted lock: its nonce and its terms.
    fn accepted_lock(&self, interface: u32) -> Option<Lock<'_>> {
        let request = self.served_request(interface)?;
        let Call::Respond { session, .. } = &self.call else { return None };
        self.is_lock().then(|| Lock {
            nonce: &self.outcome.reply[16..48],
            lock_msix: request[16] & 4 != 0,
            stream: request[18],
            session: session.0,
        })
    }

    /// "Well-formed means past the version, type and length checks."
    fn well_formed_start(&self, interface: u32, nonce: &[u8]) -> bool {
        self.served_request(interface)
            .is_some_and(|request| request[..2] == [0x10, 0x86] && request.len() == 48 && request[16..] == *nonce)
    }

    fn accepted_stop(&self, interface: u32) -> bool {
        self.served_request(interface).is_some_and(|request| request[1] == 0x87 && self.outcome.reply[1] == 0x07)
    }

    /// A served change that 01 sends to ERROR, for an interface locked on these terms.
    fn sends_to_error(&self, interface: u32, lock: &Lock) -> bool {
        self.outcome.number == 0
            && match &self.call {
                Call::Respond { .. } | Call::Firmware => false,
                Call::Multicast | Call::RegisterWrite { class: 10, .. } => true,
                Call::StreamDown(stream) => stream.0 == lock.stream,
                Call::SessionEnd(session) => session.0 == lock.session,
                Call::RegisterWrite { function_id, class } => {
                    same(function_id.0, interface)
                        && match class {
                            1 | 3 | 9 | 11 | 12 | 13 | 14 | 15 => false,
                            2 => lock.lock_msix,
                            _ => true,
                        }
                }
            }
    }
}

struct Lock<'a> {
    nonce: &'a [u8],
    lock_msix: bool,
    stream: u8,
    session: u8,
}

/// The interface's lock that nothing since has ended, and what came since.
fn standing_lock(history: &[Event], interface: u32) -> Option<(Lock<'_>, &[Event])> {
    history.iter().enumerate().find_map(|(place, event)| {
        let (lock, since) = (event.accepted_lock(interface)?, &history[place + 1..]);
        let ended = since.iter().any(|event| event.accepted_stop(interface) || event.sends_to_error(interface, &lock));
        (!ended).then_some((lock, since))
    })
}

/// Demand 3's words over a history: some lock, a start after it, and nothing since that lock that ended it.
fn runs_by(history: &[Event], interface: u32) -> bool {
    standing_lock(history, interface)
        .is_some_and(|(lock, since)| since.iter().any(|event| event.well_formed_start(interface, lock.nonce)))
}

// ---- What a run met ---------------------------------------------------------------------------------------------------

/// How often a run met what it is about.
#[derive(Default)]
struct Seen(BTreeMap<&'static str, u64>);

impl Seen {
    fn count(&mut self, what: &'static str, met: bool) {
        *self.0.entry(what).or_default() += u64::from(met);
    }

    /// What came of one call.
    fn call(&mut self, call: &Call, outcome: &Outcome) {
        let served = outcome.number == 0;
        self.count("calls", true);
        self.count("refused calls", !served);
        self.count("calls on tables that are not accepted", (1..=3).contains(&outcome.number));
        match call {
            Call::Respond { .. } => {
                let error = served && outcome.reply[1] == 0x7F;
                self.count("short requests", outcome.number == 5);
                self.count("errors", error);
                self.count("wrong nonces", error && outcome.reply[16..18] == [0x02, 0x01]);
            }
            Call::RegisterWrite { class, .. } => {
                self.count("served writes of class 10", *class == 10 && served);
                self.count("served writes of other classes", *class != 10 && served);
                self.count("writes naming nobody", outcome.number == 7);
            }
            Call::StreamDown(_) | Call::SessionEnd(_) | Call::Multicast => {
                self.count("device-wide events", served);
                self.count("device-wide events that moved some", outcome.value > 0);
            }
            Call::Firmware => self.count("firmware questions", served),
        }
    }

    /// Prints what was met. A run that hardly met one of these would show little.
    fn done(self, test: &str, side: &Side, least: &[(&str, u64)]) {
        let seen: Vec<String> = self.0.iter().map(|(what, count)| format!("{what}: {count}")).collect();
        say(&format!("{test}, {}: {}", side.name, seen.join(", ")));
        for (what, least) in least {
            let met = self.0.get(*what).copied().unwrap_or_default();
            assert!(met >= *least, "{test}, {}: {what}: {met}, under {least}", side.name);
        }
    }
}

/// A refused call: 0 beside its number, the whole reply buffer and the whole table as they were.
fn refusal_stays(event: &Event, before: &[u8], table: &[u8]) -> bool {
    let lent: &[u8] = if let Call::Respond { reply, .. } = &event.call { reply } else { &[] };
    event.outcome.number == 0 || (event.outcome.value == 0 && event.outcome.reply == lent && before == table)
}

/// What one history must show: after every call every interface is checked.
type Check = fn(&Side, &mut Rng, &mut Seen) -> Result<(), String>;

/// Random histories on one side. Gives the first disagreement as an error.
fn check_all(check: Check, side: &Side, seed: u64, histories: u64) -> Result<Seen, String> {
    let mut seen = Seen::default();
    for history in 0..histories {
        check(side, &mut Rng::new(seed.wrapping_add(history)), &mut seen)
            .map_err(|what| format!("{}: seed {seed:#018x}, history {history}: {what}", side.name))?;
    }
    Ok(seen)
}

/// The next call of a history: mostly a new one; or an earlier one again; or a start with the nonce of an earlier lock, for that
/// lock's interface or for another.
fn next_call(rng: &mut Rng, table: &[u8], history: &[Event]) -> Call {
    match rng.below(12) {
        0 if !history.is_empty() => history[rng.index(history.len())].call.clone(),
        1 => {
            let locks: Vec<&Event> = history.iter().filter(|event| event.is_lock()).collect();
            if locks.is_empty() {
                return cases::call(rng, table, true);
            }
            let id = if rng.once_in(4) { table[..4].to_vec() } else { rng.pick(&locks).outcome.reply[4..8].to_vec() };
            let nonce = &rng.pick(&locks).outcome.reply[16..48];
            let request = [&[0x10, 0x86, 0, 0][..], &id, &[0; 8], nonce].concat();
            let (reply, map) = (rng.bytes(256), rng.bytes(32));
            Call::Respond { request, reply, nonce: rng.bytes(32), ready: true, streams: map, session: Session(1) }
        }
        _ => cases::call(rng, table, true),
    }
}

// ---- RUN exactly when -----------------------------------------------------------------------------------------------

/// One history, of one to four interfaces, all in CONFIG_UNLOCKED. One table in eight is not accepted: its calls are refused.
fn check_history(side: &Side, rng: &mut Rng, seen: &mut Seen) -> Result<(), String> {
    let records = 1 + rng.index(4);
    let valid = cases::valid_table_in(rng, records, &[0]);
    let mut table = valid.clone();
    let refused = if rng.once_in(8) { Some(cases::spoil(rng, &mut table)) } else { None };
    let mut history: Vec<Event> = Vec::new();
    for _ in 0..CALLS {
        let call = next_call(rng, if refused.is_some() { &valid } else { &table }, &history);
        let before = table.clone();
        let outcome = side.run(&call, &mut table);
        seen.call(&call, &outcome);
        history.push(Event { call, outcome });
        let last = &history[history.len() - 1];
        let wrong = |what: String| {
            Err(format!("{what}; last of {} calls: {}\n  {}\nbefore: {}", history.len(), last.call, last.outcome, hex(&before)))
        };
        if !refusal_stays(last, &before, &table) {
            return wrong("a refused call left something changed".into());
        }
        if refused.unwrap_or(last.outcome.number) != last.outcome.number {
            return wrong(format!("the table's number is {refused:?}"));
        }
        for (record, old) in table.chunks_exact(RECORD).zip(before.chunks_exact(RECORD)) {
            let in_run = record[4] == 2;
            seen.count("checks of an interface", true);
            seen.count("interfaces in RUN", in_run);
            seen.count("moves out of RUN", old[4] == 2 && !in_run);
            if in_run != runs_by(&history, function_id(record)) {
                return wrong(format!("{:08X}h is in state {}, RUN by the history: {}", function_id(record), record[4], !in_run));
            }
        }
    }
    Ok(())
}

fn run_exactly_when(side: &Side) {
    let seen = check_all(check_history, side, seed_of("RUN on histories"), HISTORIES).unwrap_or_else(|what| panic!("{what}"));
    seen.done(
        "RUN on histories",
        side,
        &[
            ("interfaces in RUN", 10_000),
            ("moves out of RUN", 500),
            ("refused calls", 5_000),
            ("calls on tables that are not accepted", 5_000),
            ("short requests", 500),
            ("wrong nonces", 500),
            ("served writes of class 10", 100),
            ("writes naming nobody", 500),
            ("device-wide events", 1_000),
        ],
    );
}

// ---- Wrong responders do not pass -----------------------------------------------------------------------------------

fn fails_at(check: Check, wrong: Side) {
    let seed = seed_of(wrong.name);
    assert!(check_all(check, &wrong, seed, 300).is_err(), "{} passed", wrong.name);
}

fn fails(wrong: Side) {
    fails_at(check_history, wrong);
}

/// Every reply as it should be, on a table that is left alone.
#[test]
fn leaving_the_table_alone_fails() {
    fails(Side {
        name: "leaves the table alone",
        respond: |request, reply, table, nonce, ready, streams, session| {
            ordinary::respond(request, reply, &mut table.to_vec(), nonce, ready, streams, session)
        },
        ..ORDINARY
    });
}

/// RUN entered at the lock; the start is answered as if it had done it.
#[test]
fn running_at_the_lock_fails() {
    fails(Side {
        name: "enters RUN at the lock",
        respond: |request, reply, table, nonce, ready, streams, session| {
            let answer = ordinary::respond(request, reply, table, nonce, ready, streams, session);
            if answer.number == 0 && reply[1] == 0x03 {
                for record in table.chunks_mut(RECORD).filter(|record| record[4] == 1) {
                    record[4..6].copy_from_slice(&[2, 0]);
                    record[40..72].fill(0);
                }
            }
            answer
        },
        ..ORDINARY
    });
}

/// A responder that starts with any nonce.
#[test]
fn starting_with_any_nonce_fails() {
    fails(Side {
        name: "starts with any nonce",
        respond: |request, reply, table, nonce, ready, streams, session| {
            let mut request = request.to_vec();
            if let Some(record) = table.chunks_exact(RECORD).find(|record| request.get(4..8) == Some(&record[..4]))
                && request.len() == 48
            {
                request[16..].copy_from_slice(&record[40..72]);
            }
            ordinary::respond(&request, reply, table, nonce, ready, streams, session)
        },
        ..ORDINARY
    });
}

/// "Sending all interfaces of one stream to ERROR except the last."
#[test]
fn forgetting_the_last_of_a_stream_fails() {
    fails(Side {
        name: "forgets the last interface of a stream",
        stream_down: |table, stream| {
            let last = table.len().saturating_sub(RECORD);
            let kept = table[last..].to_vec();
            let moved = ordinary::stream_down(table, stream);
            table[last..].copy_from_slice(&kept);
            moved
        },
        ..ORDINARY
    });
}

/// A register write that moves every interface of the same requester number, whatever its segment.
#[test]
fn moving_another_segment_fails() {
    fails(Side {
        name: "moves another segment",
        register_write: |table, function_id, class| {
            let ids: Vec<u32> = table.chunks_exact(RECORD).map(cases::function_id).collect();
            let moved = ordinary::register_write(table, function_id, class);
            for id in ids.into_iter().filter(|id| id & 0xFFFF == function_id.0 & 0xFFFF) {
                ordinary::register_write(table, FunctionId(id), class);
            }
            moved
        },
        ..ORDINARY
    });
}

/// "Spending a nonce on a wrong guess."
#[test]
fn spending_a_nonce_on_a_wrong_guess_fails() {
    fails(Side {
        name: "spends a nonce on a wrong guess",
        respond: |request, reply, table, nonce, ready, streams, session| {
            let answer = ordinary::respond(request, reply, table, nonce, ready, streams, session);
            if answer.number == 0 && reply[1] == 0x7F && reply[16..18] == [0x02, 0x01] {
                for record in table.chunks_mut(RECORD).filter(|record| record[..4] == request[4..8]) {
                    record[40..72].fill(0);
                }
            }
            answer
        },
        ..ORDINARY
    });
}

/// A refusal that has begun to write its reply.
#[test]
fn writing_beside_a_refusal_fails() {
    fails(Side {
        name: "writes beside a refusal",
        respond: |request, reply, table, nonce, ready, streams, session| {
            let answer = ordinary::respond(request, reply, table, nonce, ready, streams, session);
            if let Some(last) = reply.last_mut()
                && answer.number != 0
            {
                *last ^= 1;
            }
            answer
        },
        ..ORDINARY
    });
}

// ---- The report while a lock stands -----------------------------------------------------------------------------------

/// What the interface's report requests get: from OFFSET 0, from its middle, and past every total. They leave the table.
fn asked(side: &Side, rng: &mut Rng, interface: u32, table: &[u8]) -> Vec<Vec<u8>> {
    [[0, 0xFFFF], [17, 40], [200, 1]]
        .map(|[offset, length]: [u16; 2]| {
            let id = [interface.to_le_bytes(), [0; 4], [0; 4]].concat();
            let request = [&[0x10, 0x84, 0, 0][..], &id, &offset.to_le_bytes(), &length.to_le_bytes()].concat();
            let (reply, nonce, streams) = (rng.bytes(256), rng.bytes(32), rng.bytes(32));
            let call = Call::Respond { request, reply, nonce, ready: rng.once_in(2), streams, session: Session(rng.byte()) };
            let mut after = table.to_vec();
            let outcome = side.run(&call, &mut after);
            assert!(outcome.number == 0 && after == table, "{}: {call}", side.name);
            outcome.reply[..outcome.value as usize].to_vec()
        })
        .to_vec()
}

/// One history of one to four interfaces, all in CONFIG_UNLOCKED. After every call every interface is asked for its report: while a
/// lock stands it is what it was at that lock, and otherwise each request gets 04h.
fn check_reports(side: &Side, rng: &mut Rng, seen: &mut Seen) -> Result<(), String> {
    let records = 1 + rng.index(4);
    let mut table = cases::valid_table_in(rng, records, &[0]);
    let interfaces: Vec<u32> = table.chunks_exact(RECORD).map(function_id).collect();
    let mut history: Vec<Event> = Vec::new();
    let mut at_the_lock: BTreeMap<u32, Vec<Vec<u8>>> = BTreeMap::new();
    for _ in 0..CALLS {
        let call = next_call(rng, &table, &history);
        let outcome = side.run(&call, &mut table);
        history.push(Event { call, outcome });
        for &interface in &interfaces {
            let got = asked(side, rng, interface, &table);
            let right = if standing_lock(&history, interface).is_none() {
                seen.count("reports of interfaces that are not locked", true);
                at_the_lock.remove(&interface);
                got.iter().all(|reply| reply[1] == 0x7F && reply[16..] == [4, 0, 0, 0, 0, 0, 0, 0])
            } else {
                let running = runs_by(&history, interface);
                seen.count("reports in CONFIG_LOCKED", !running);
                seen.count("reports in RUN", running);
                *at_the_lock.entry(interface).or_insert_with(|| got.clone()) == got && got[0][1] == 0x04
            };
            if !right {
                let last = &history[history.len() - 1];
                return Err(format!("{interface:08X}h got {got:02X?}; last of {} calls: {}", history.len(), last.call));
            }
        }
    }
    Ok(())
}

fn a_lock_has_one_report(side: &Side) {
    let seen =
        check_all(check_reports, side, seed_of("reports on histories"), REPORT_HISTORIES).unwrap_or_else(|what| panic!("{what}"));
    let least =
        [("reports in CONFIG_LOCKED", 5_000), ("reports in RUN", 2_000), ("reports of interfaces that are not locked", 5_000)];
    seen.done("reports on histories", side, &least);
}

/// The report in CONFIG_LOCKED alone, as before 1/12.
#[test]
fn refusing_the_report_in_run_fails() {
    fails_at(
        check_reports,
        Side {
            name: "refuses the report in RUN",
            respond: |request, reply, table, nonce, ready, streams, session| {
                let answer = ordinary::respond(request, reply, table, nonce, ready, streams, session);
                let runs = table.chunks_exact(RECORD).any(|record| request.get(4..8) == Some(&record[..4]) && record[4] == 2);
                if answer.number != 0 || reply[1] != 0x04 || !runs {
                    return answer;
                }
                reply[1] = 0x7F;
                reply[16..24].copy_from_slice(&[4, 0, 0, 0, 0, 0, 0, 0]);
                tdisp::Answer { length: 24, ..answer }
            },
            ..ORDINARY
        },
    );
}

/// The state shown in the high byte of INTERFACE_INFO.
#[test]
fn showing_the_state_in_the_report_fails() {
    fails_at(
        check_reports,
        Side {
            name: "shows the state in the report",
            respond: |request, reply, table, nonce, ready, streams, session| {
                let answer = ordinary::respond(request, reply, table, nonce, ready, streams, session);
                let named = table.chunks_exact(RECORD).find(|record| request.get(4..8) == Some(&record[..4]));
                if let Some(record) = named
                    && answer.number == 0
                    && reply[1] == 0x04
                    && answer.length > 21
                {
                    reply[21] = record[4];
                }
                answer
            },
            ..ORDINARY
        },
    );
}

// ---- The swap -------------------------------------------------------------------------------------------------------

/// A table after a short history, so that interfaces are in all states.
fn lived_in_table(side: &Side, rng: &mut Rng) -> Vec<u8> {
    let records = rng.pick(&[1, 2, 2, 3, 4]);
    let mut table = cases::valid_table_in(rng, records, &[0, 0, 1, 2, 3]);
    for _ in 0..rng.below(4) {
        let call = cases::call(rng, &table, true);
        side.run(&call, &mut table);
    }
    // The swap holds of tables that are not accepted as well.
    match rng.below(32) {
        0 => cases::scratch(rng, &mut table),
        1 => {
            cases::spoil(rng, &mut table);
        }
        _ => {}
    }
    table
}

/// A request or a register write: what may be swapped. A short request comes by now and then.
fn swappable_call(rng: &mut Rng, table: &[u8]) -> Call {
    if rng.once_in(5) { cases::register_call(rng, table) } else { cases::respond_call(rng, table) }
}

/// Two calls in either order, from the same table: both times the same replies, and the same final table.
fn check_swaps(side: &Side, seed: u64, swaps: u64) -> Result<Seen, String> {
    let (mut rng, mut seen, mut swapped) = (Rng::new(seed), Seen::default(), 0);
    while swapped < swaps {
        let table = lived_in_table(side, &mut rng);
        let (a, b) = (swappable_call(&mut rng, &table), swappable_call(&mut rng, &table));
        if !may_swap(&a, &b) {
            continue;
        }
        let (mut a_first, mut b_first) = (table.clone(), table.clone());
        let (a1, after_a) = (side.run(&a, &mut a_first), a_first.clone());
        let b1 = side.run(&b, &mut a_first);
        let (b2, after_b) = (side.run(&b, &mut b_first), b_first.clone());
        let a2 = side.run(&a, &mut b_first);
        if a1 != a2 || b1 != b2 || a_first != b_first {
            return Err(format!(
                "{}: a swap is seen, seed {seed:#018x}\na: {a}\n  first: {a1}\n  second: {a2}\n\
                 b: {b}\n  second: {b1}\n  first: {b2}\ntable: {}",
                side.name,
                hex(&table)
            ));
        }
        swapped += 1;
        seen.call(&a, &a1);
        seen.call(&b, &b1);
        seen.count("swaps where both calls changed the table", after_a != table && after_b != table);
        seen.count("swaps where one did", (after_a != table) != (after_b != table));
    }
    Ok(seen)
}

fn neighbours_may_be_swapped(side: &Side) {
    let seen = check_swaps(side, seed_of("swap"), SWAPS).unwrap_or_else(|what| panic!("{what}"));
    seen.done(
        "swap",
        side,
        &[
            ("swaps where both calls changed the table", 1_000),
            ("swaps where one did", 10_000),
            ("refused calls", 5_000),
            ("calls on tables that are not accepted", 5_000),
            ("short requests", 500),
            ("wrong nonces", 500),
            ("writes naming nobody", 500),
        ],
    );
}

/// The swap inside a history, device-wide events and firmware questions among its calls: any two neighbours that may be swapped,
/// all else in its place. Every call gets the reply that it got before, and the final table is the same.
fn histories_with_a_swap_end_alike(side: &Side) {
    let seed = seed_of("swap in histories");
    let mut seen = Seen::default();
    for history in 0..SWAP_HISTORIES {
        let mut rng = Rng::new(seed.wrapping_add(history));
        let start = lived_in_table(side, &mut rng);
        let mut table = start.clone();
        let mut calls = Vec::new();
        for _ in 0..SWAP_CALLS {
            let call = cases::call(&mut rng, &table, true);
            let outcome = side.run(&call, &mut table);
            seen.call(&call, &outcome);
            calls.push((call, outcome));
        }
        for place in (1..calls.len()).filter(|&place| may_swap(&calls[place - 1].0, &calls[place].0)) {
            let mut swapped: Vec<_> = calls.iter().collect();
            swapped.swap(place - 1, place);
            let mut other = start.clone();
            let what = format!("{}: seed {seed:#018x}, history {history}: call {place} swapped with the one before", side.name);
            for (call, outcome) in swapped {
                assert_eq!(side.run(call, &mut other), *outcome, "{what}: {call}");
            }
            assert_eq!(hex(&table), hex(&other), "{what}");
            seen.count("histories with a swap", true);
        }
    }
    let least = [("histories with a swap", 5 * SWAP_HISTORIES), ("device-wide events", 100), ("served writes of class 10", 5)];
    seen.done("swap in histories", side, &least);
}

// ---- Wrong responders do not swap -------------------------------------------------------------------------------------

fn does_not_swap(wrong: Side) {
    let seed = seed_of(wrong.name);
    assert!(check_swaps(&wrong, seed, 10_000).is_err(), "{} passed", wrong.name);
}

/// A stop that stops every interface.
#[test]
fn stopping_everybody_does_not_swap() {
    does_not_swap(Side {
        name: "stops everybody",
        respond: |request, reply, table, nonce, ready, streams, session| {
            let answer = ordinary::respond(request, reply, table, nonce, ready, streams, session);
            if answer.number == 0 && reply[1] == 0x07 {
                for record in table.chunks_mut(RECORD) {
                    record[4..10].fill(0);
                    record[24..32].fill(0);
                    record[40..72].fill(0);
                }
            }
            answer
        },
        ..ORDINARY
    });
}

/// A card that has one lock at a time to give.
#[test]
fn one_lock_at_a_time_does_not_swap() {
    does_not_swap(Side {
        name: "one lock at a time",
        respond: |request, reply, table, nonce, ready, streams, session| {
            let busy = table.chunks_exact(RECORD).any(|record| record[4] == 1);
            ordinary::respond(request, reply, table, nonce, ready && !busy, streams, session)
        },
        ..ORDINARY
    });
}
