//! A call as a value, so that it can be repeated, swapped and printed; and the two sides that can run it.

use crate::ordinary;
use std::fmt;
use tdisp::{Answer, FunctionId, Moved, Report, Session, Stream, Yes};

/// One call with all that it is lent except the table.
#[derive(Clone, Debug, PartialEq, Eq)]
pub enum Call {
    Respond { request: Vec<u8>, reply: Vec<u8>, nonce: Vec<u8>, ready: bool, streams: Vec<u8>, session: Session },
    RegisterWrite { function_id: FunctionId, class: u8 },
    StreamDown(Stream),
    SessionEnd(Session),
    Multicast,
    Firmware,
}

/// What came back beside the table: the number; the length, count or answer; the whole reply buffer (empty where there is none).
#[derive(Clone, Debug, PartialEq, Eq)]
pub struct Outcome {
    pub number: u32,
    pub value: u32,
    pub reply: Vec<u8>,
}

/// One of the two responders. That both fit here shows that their functions have the same signatures.
pub struct Side {
    pub name: &'static str,
    #[allow(clippy::type_complexity)]
    pub respond: fn(&[u8], &mut [u8], &mut [u8], &[u8], bool, &[u8], Session) -> Answer,
    pub register_write: fn(&mut [u8], FunctionId, u8) -> Moved,
    pub stream_down: fn(&mut [u8], Stream) -> Moved,
    pub session_end: fn(&mut [u8], Session) -> Moved,
    pub multicast: fn(&mut [u8]) -> Moved,
    pub firmware: fn(&[u8]) -> Yes,
    pub read_report: fn(&[u8]) -> Report,
    pub write_report: fn(&Report, &mut [u8]) -> Answer,
}

pub const PROVED: Side = Side {
    name: "proved",
    respond: tdisp::respond,
    register_write: tdisp::register_write,
    stream_down: tdisp::stream_down,
    session_end: tdisp::session_end,
    multicast: tdisp::multicast,
    firmware: tdisp::firmware,
    read_report: tdisp::read_report,
    write_report: tdisp::write_report,
};

pub const ORDINARY: Side = Side {
    name: "ordinary",
    respond: ordinary::respond,
    register_write: ordinary::register_write,
    stream_down: ordinary::stream_down,
    session_end: ordinary::session_end,
    multicast: ordinary::multicast,
    firmware: ordinary::firmware,
    read_report: ordinary::read_report,
    write_report: ordinary::write_report,
};

impl Side {
    /// Runs the call on the table. The call's own buffers stay as they are: the reply is written to a copy.
    pub fn run(&self, call: &Call, table: &mut [u8]) -> Outcome {
        let outcome = |number, value| Outcome { number, value, reply: Vec::new() };
        let moved = |moved: Moved| outcome(moved.number, moved.count);
        match call {
            Call::Respond { request, reply, nonce, ready, streams, session } => {
                let mut reply = reply.clone();
                let answer = (self.respond)(request, &mut reply, table, nonce, *ready, streams, *session);
                Outcome { number: answer.number, value: answer.length, reply }
            }
            Call::RegisterWrite { function_id, class } => moved((self.register_write)(table, *function_id, *class)),
            Call::StreamDown(stream) => moved((self.stream_down)(table, *stream)),
            Call::SessionEnd(session) => moved((self.session_end)(table, *session)),
            Call::Multicast => moved((self.multicast)(table)),
            Call::Firmware => {
                let yes = (self.firmware)(table);
                outcome(yes.number, yes.yes)
            }
        }
    }
}

/// Bytes as 01 writes them: "00 01".
pub fn hex(bytes: &[u8]) -> String {
    let digits: Vec<String> = bytes.iter().map(|byte| format!("{byte:02X}")).collect();
    digits.join(" ")
}

impl fmt::Display for Call {
    fn fmt(&self, f: &mut fmt::Formatter) -> fmt::Result {
        match self {
            Call::Respond { request, reply, nonce, ready, streams, session } => {
                writeln!(f, "respond, ready {ready}, session {}", session.0)?;
                writeln!(f, "  request ({}): {}", request.len(), hex(request))?;
                writeln!(f, "  reply buffer before ({}): {}", reply.len(), hex(reply))?;
                writeln!(f, "  nonce ({}): {}", nonce.len(), hex(nonce))?;
                write!(f, "  streams ({}): {}", streams.len(), hex(streams))
            }
            Call::RegisterWrite { function_id, class } => write!(f, "register_write {:08X}h, class {class}", function_id.0),
            Call::StreamDown(stream) => write!(f, "stream_down {}", stream.0),
            Call::SessionEnd(session) => write!(f, "session_end {}", session.0),
            Call::Multicast => write!(f, "multicast"),
            Call::Firmware => write!(f, "firmware"),
        }
    }
}

impl fmt::Display for Outcome {
    fn fmt(&self, f: &mut fmt::Formatter) -> fmt::Result {
        write!(f, "number {}, length/count/answer {}, reply buffer: {}", self.number, self.value, hex(&self.reply))
    }
}
