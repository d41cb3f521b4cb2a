//! Speed on full tables (64 records, 8 ranges each), the proved responder and the ordinary one side by side in one run.
//!
//!     bench                                every kind: calls a second on each side, and the ratio; then instructions a call for
//!                                          some kinds, if valgrind is there
//!     bench KIND ...                       these kinds only
//!     bench count proved|ordinary KIND N   N calls of one side and nothing else, for valgrind --tool=callgrind
//!
//! Both sides are called through function pointers, in turns, with the same calls on the same tables.

use compare::calls::{ORDINARY, PROVED, Side};
use compare::cases::{self, RECORD, Rng};
use std::process::{Command, ExitCode};
use std::time::{Duration, Instant};
use tdisp::{FunctionId, Report, Session, Stream};

const ROUNDS: usize = 21;
const ROUND: Duration = Duration::from_millis(15);

// ---- What is measured -----------------------------------------------------------------------------------------------

enum Step {
    Request(Vec<u8>),
    RegisterWrite(FunctionId, u8),
    StreamDown(Stream),
    SessionEnd(Session),
    Multicast,
    Firmware,
    ReadReport(Vec<u8>),
    WriteReport(Box<Report>),
}

/// The steps of one pass. The table is fresh at the start of each.
struct Kind {
    name: &'static str,
    what: &'static str,
    table: Vec<u8>,
    steps: Vec<Step>,
}

fn request(record: &[u8], kind: u8, payload: &[u8]) -> Step {
    Step::Request([&[0x10, kind, 0, 0][..], &record[..4], &[0; 8], payload].concat())
}

/// Classes that are allowed, that go by LOCK_MSIX, and that move the interface.
const CLASSES: [u8; 8] = [1, 2, 3, 5, 9, 14, 17, 200];

fn write(place: usize, record: &[u8]) -> Step {
    Step::RegisterWrite(FunctionId(cases::function_id(record)), CLASSES[place % CLASSES.len()])
}

/// The whole report from its start: 128 of 200 bytes.
const WHOLE: [u8; 4] = [0, 0, 0xFF, 0xFF];

/// Flags 0, stream 3, offset 0.
const LOCK: [u8; 20] = [0, 0, 3, 0, 0, 0, 0, 0, 0, 0, 0, 0, 0, 0, 0, 0, 0, 0, 0, 0];

fn kinds() -> Vec<Kind> {
    let mut rng = Rng::new(1);
    let unlocked = cases::full_table(&mut rng, 0);
    let locked = cases::full_table(&mut rng, 1);
    // One pass goes over all records in order, with these steps for each.
    let pass = |name, what, table: &Vec<u8>, steps: &dyn Fn(usize, &[u8]) -> Vec<Step>| {
        let steps = table.chunks(RECORD).enumerate().flat_map(|(place, record)| steps(place, record)).collect();
        Kind { name, what, table: table.clone(), steps }
    };
    let state = |record: &[u8]| request(record, 0x85, &[]);
    let report = |record: &[u8]| request(record, 0x84, &WHOLE);
    let mut fields = cases::valid_fields(&mut rng);
    while (fields.n, fields.l) != (8, 52) {
        fields = cases::valid_fields(&mut rng);
    }
    let bytes = cases::report_bytes(&fields);
    vec![
        pass("mix", "85h, 84h, register write in turn", &locked, &|at, r| vec![state(r), report(r), write(at, r)]),
        pass("81h", "GET_TDISP_VERSION", &locked, &|_, r| vec![request(r, 0x81, &[])]),
        pass("82h", "GET_TDISP_CAPABILITIES", &locked, &|_, r| vec![request(r, 0x82, &[0; 4])]),
        pass("83h", "LOCK_INTERFACE", &unlocked, &|_, r| vec![request(r, 0x83, &LOCK)]),
        pass("84h", "GET_DEVICE_INTERFACE_REPORT, 128 bytes", &locked, &|_, r| vec![report(r)]),
        pass("85h", "GET_DEVICE_INTERFACE_STATE", &locked, &|_, r| vec![state(r)]),
        pass("86h", "START_INTERFACE", &locked, &|_, r| vec![request(r, 0x86, &r[40..72])]),
        pass("87h", "STOP_INTERFACE", &locked, &|_, r| vec![request(r, 0x87, &[])]),
        pass("write", "register writes, half of them moving", &locked, &|at, r| vec![write(at, r)]),
        pass("stream-down", "of streams 0 to 63", &locked, &|at, _| vec![Step::StreamDown(Stream(at as u8))]),
        pass("session-end", "of sessions 0 to 63", &locked, &|at, _| vec![Step::SessionEnd(Session(at as u8))]),
        pass("multicast", "one that moves all, 63 that move none", &locked, &|_, _| vec![Step::Multicast]),
        pass("firmware", "the firmware question", &locked, &|_, _| vec![Step::Firmware]),
        pass("read-report", "200 bytes", &locked, &|_, _| vec![Step::ReadReport(bytes.clone())]),
        pass("write-report", "200 bytes", &locked, &|_, _| vec![Step::WriteReport(Box::new(fields))]),
    ]
}

// ---- Running it -----------------------------------------------------------------------------------------------------

/// One side with the buffers that it lends.
struct Runner<'a> {
    side: &'a Side,
    kind: &'a Kind,
    table: Vec<u8>,
    reply: [u8; 256],
    /// A sum over all answers: it must be the same on both sides.
    sum: u64,
}

impl<'a> Runner<'a> {
    fn new(side: &'a Side, kind: &'a Kind) -> Runner<'a> {
        Runner { side, kind, table: kind.table.clone(), reply: [0; 256], sum: 0 }
    }

    fn step(&mut self, step: &Step) {
        let (side, table) = (self.side, &mut self.table[..]);
        let (number, value) = match step {
            Step::Request(request) => {
                let answer = (side.respond)(request, &mut self.reply, table, &[7; 32], true, &[0xFF; 32], Session(1));
                (answer.number, answer.length + u32::from(self.reply[1]))
            }
            Step::RegisterWrite(function_id, class) => {
                let moved = (side.register_write)(table, *function_id, *class);
                (moved.number, moved.count)
            }
            Step::StreamDown(stream) => {
                let moved = (side.stream_down)(table, *stream);
                (moved.number, moved.count)
            }
            Step::SessionEnd(session) => {
                let moved = (side.session_end)(table, *session);
                (moved.number, moved.count)
            }
            Step::Multicast => {
                let moved = (side.multicast)(table);
                (moved.number, moved.count)
            }
            Step::Firmware => {
                let yes = (side.firmware)(table);
                (yes.number, yes.yes)
            }
            Step::ReadReport(report) => {
                let fields = (side.read_report)(report);
                (fields.number, fields.n + fields.l)
            }
            Step::WriteReport(fields) => {
                let answer = (side.write_report)(fields, &mut self.reply);
                (answer.number, answer.length)
            }
        };
        assert_eq!(number, 0, "{}: a call of the benchmark was refused", side.name);
        self.sum = self.sum.wrapping_mul(31).wrapping_add(value.into());
    }

    /// That many calls, pass after pass.
    fn calls(&mut self, count: usize) {
        let kind = self.kind;
        for steps in 0..count.div_ceil(kind.steps.len()) {
            self.table.copy_from_slice(&kind.table);
            for step in kind.steps.iter().take(count - steps * kind.steps.len()) {
                self.step(step);
            }
        }
    }

    fn timed(&mut self, count: usize) -> Duration {
        let start = Instant::now();
        self.calls(count);
        start.elapsed()
    }
}

/// Whole passes that take about one round.
fn calls_in_a_round(kind: &Kind) -> usize {
    let mut runner = Runner::new(&ORDINARY, kind);
    let mut passes = 1;
    while runner.timed(passes * kind.steps.len()) < ROUND {
        passes *= 2;
    }
    passes * kind.steps.len()
}

fn median(mut values: Vec<f64>) -> f64 {
    values.sort_by(f64::total_cmp);
    values[values.len() / 2]
}

/// Calls a second on the proved and on the ordinary side, and how the two rates compare: medians over the rounds. The ratio is
/// taken within each round, where both ran one after the other, so that a busy machine disturbs it little.
fn rates(kind: &Kind) -> (f64, f64, f64) {
    let count = calls_in_a_round(kind);
    let (mut proved, mut ordinary) = (Runner::new(&PROVED, kind), Runner::new(&ORDINARY, kind));
    let (mut proved_rates, mut ordinary_rates, mut ratios) = (Vec::new(), Vec::new(), Vec::new());
    for round in 0..ROUNDS {
        // Who goes first changes with each round.
        let (proved_time, ordinary_time) = if round % 2 == 0 {
            let first = proved.timed(count);
            (first, ordinary.timed(count))
        } else {
            let first = ordinary.timed(count);
            (proved.timed(count), first)
        };
        proved_rates.push(count as f64 / proved_time.as_secs_f64());
        ordinary_rates.push(count as f64 / ordinary_time.as_secs_f64());
        ratios.push(ordinary_time.as_secs_f64() / proved_time.as_secs_f64());
    }
    assert_eq!(proved.sum, ordinary.sum, "{}: the two sides gave different answers", kind.name);
    (median(proved_rates), median(ordinary_rates), median(ratios))
}

fn show_rates(kinds: &[&Kind]) {
    println!("calls a second on tables of 64 records with 8 ranges each; medians of {ROUNDS} rounds in turns");
    println!("{:<14} {:>12} {:>12} {:>16}", "kind", "proved", "ordinary", "proved/ordinary");
    for kind in kinds {
        let (proved, ordinary, ratio) = rates(kind);
        println!("{:<14} {proved:>12.0} {ordinary:>12.0} {ratio:>16.2}   {}", kind.name, kind.what);
    }
}

// ---- Instructions ---------------------------------------------------------------------------------------------------

/// The instructions that callgrind collects in a run of this program with these arguments, if valgrind is there.
fn collected(side: &Side, kind: &Kind, calls: usize) -> Option<f64> {
    let output = Command::new("valgrind")
        .args(["--tool=callgrind", "--callgrind-out-file=/dev/null"])
        .arg(std::env::current_exe().ok()?)
        .args(["count", side.name, kind.name, &calls.to_string()])
        .output()
        .ok()?;
    let said = String::from_utf8_lossy(&output.stderr).into_owned();
    let line = said.lines().find(|line| line.contains("Collected :"))?;
    line.rsplit(' ').next()?.parse().ok()
}

/// Instructions a call: those of three passes without those of none.
fn instructions(side: &Side, kind: &Kind) -> Option<f64> {
    let calls = 3 * kind.steps.len();
    Some((collected(side, kind, calls)? - collected(side, kind, 0)?) / calls as f64)
}

fn show_instructions(kinds: &[&Kind]) {
    if Command::new("valgrind").arg("--version").output().is_err() {
        println!("instructions: valgrind is not there");
        return;
    }
    println!("instructions a call, by callgrind");
    println!("{:<14} {:>12} {:>12} {:>16}", "kind", "proved", "ordinary", "ordinary/proved");
    for kind in kinds {
        match (instructions(&PROVED, kind), instructions(&ORDINARY, kind)) {
            (Some(proved), Some(ordinary)) => {
                println!("{:<14} {proved:>12.0} {ordinary:>12.0} {:>16.2}", kind.name, ordinary / proved);
            }
            _ => println!("{:<14} not measured: callgrind gave no count", kind.name),
        }
    }
}

/// Kinds whose instructions are counted when no kind is asked for.
const COUNTED: [&str; 5] = ["mix", "84h", "85h", "write", "83h"];

// ---- The command line -----------------------------------------------------------------------------------------------

fn count(kinds: &[Kind], arguments: &[String]) -> Option<()> {
    let [side, kind, calls] = arguments else { return None };
    let side = [PROVED, ORDINARY].into_iter().find(|one| one.name == side)?;
    let kind = kinds.iter().find(|one| one.name == kind)?;
    Runner::new(&side, kind).calls(calls.parse().ok()?);
    Some(())
}

fn main() -> ExitCode {
    let kinds = kinds();
    let arguments: Vec<String> = std::env::args().skip(1).collect();
    let known = |name: &String| kinds.iter().any(|kind| kind.name == name);
    match arguments.split_first() {
        Some((first, rest)) if first == "count" => {
            if count(&kinds, rest).is_none() {
                eprintln!("bench count proved|ordinary KIND N");
                return ExitCode::FAILURE;
            }
        }
        _ if arguments.iter().all(known) => {
            let asked = |kind: &&Kind| arguments.is_empty() || arguments.iter().any(|name| name == kind.name);
            let counted = |kind: &&Kind| asked(kind) && (!arguments.is_empty() || COUNTED.contains(&kind.name));
            show_rates(&kinds.iter().filter(asked).collect::<Vec<_>>());
            show_instructions(&kinds.iter().filter(counted).collect::<Vec<_>>());
        }
        _ => {
            let names: Vec<&str> = kinds.iter().map(|kind| kind.name).collect();
            eprintln!("bench [KIND ...], with KIND one of: {}", names.join(" "));
            return ExitCode::FAILURE;
        }
    }
    ExitCode::SUCCESS
}
