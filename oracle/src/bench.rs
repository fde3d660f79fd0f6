//! The bench program's lines, written from documents 01 and 02 and not from the port.

use crate::answer::{self, Answer};
use crate::bus::{Outcome, Partner, Transfer};
use crate::call;
use crate::line::Line;
use crate::panics::Panic;
use crate::request::{LARGEST, RETIRED, Request};

/// The host at the other end of the bench's standard input and output.
pub trait Host {
    /// The request line, unless the input is empty.
    fn request(&mut self) -> Option<Line>;

    /// The line that answers the transfer just printed, unless none is left.
    fn outcome(&mut self, transfer: &Transfer<'_>) -> Option<Line>;

    /// Takes the bytes of one printed line.
    fn printed(&mut self, line: &[u8]);
}

/// What a run came to, beside the lines that it printed.
#[derive(Debug)]
pub struct Report {
    /// None where the outcomes ran out.
    pub answer: Option<Answer>,
    pub waits: u32,
    pub waited_ms: u32,
    pub transfers: u32,
    pub panic: Option<Panic>,
}

/// Runs the bench on the Rust, with `host` at the other end.
pub fn run(host: &mut impl Host) -> Report {
    let request = match asked(host.request()) {
        Ok(request) => request,
        Err(number) => {
            let answer = Answer::plain(number);
            host.printed(&last_line(Some(answer), 0, 0, None));
            return Report { answer: Some(answer), waits: 0, waited_ms: 0, transfers: 0, panic: None };
        }
    };
    let mut desk = Desk { host, refused: None };
    let run = call::run(&request, &mut desk);
    let answer = run.answer.or(desk.refused.map(Answer::plain));
    host.printed(&last_line(answer, run.waits, run.waited_ms, run.buffer.as_deref()));
    let call::Run { waits, waited_ms, transfers, panic, .. } = run;
    Report { answer, waits, waited_ms, transfers, panic }
}

/// The request that a line says, or the refusal's number. A retired kind comes before anything else on the line.
fn asked(line: Option<Line>) -> Result<Request, u8> {
    let line = line.ok_or(answer::BAD_LINE)?;
    if RETIRED.iter().any(|kind| line.text.starts_with(kind.as_bytes())) {
        return Err(answer::RETIRED_KIND);
    }
    let bytes = line.bytes().ok_or(answer::BAD_LINE)?;
    Request::from_bytes(&bytes).ok_or(answer::BAD_LINE)
}

/// Shows each transfer to the host and reads its outcome, until a line is refused.
struct Desk<'a, H> {
    host: &'a mut H,
    refused: Option<u8>,
}

impl<H: Host> Partner for Desk<'_, H> {
    fn outcome(&mut self, transfer: Transfer<'_>) -> Option<Outcome> {
        self.host.printed(&transfer_line(&transfer));
        let line = self.host.outcome(&transfer)?;
        outcome_of(&line, transfer.asked()).map_err(|number| self.refused = Some(number)).ok()
    }
}

/// The outcome that a line says of a transfer that asked for `asked` bytes, or the refusal's number.
fn outcome_of(line: &Line, asked: usize) -> Result<Outcome, u8> {
    let bytes = line.bytes().ok_or(answer::BAD_LINE)?;
    match bytes.as_slice() {
        [0x00, reply @ ..] if reply.len() > LARGEST => Err(answer::BAD_LINE),
        [0x00, reply @ ..] if reply.len() != asked => Err(answer::WRONG_REPLY),
        [0x00, reply @ ..] => Ok(Outcome::Acknowledged(reply.to_vec())),
        [0x01, code] => Ok(Outcome::BusError(*code)),
        [0x02] => Ok(Outcome::TimedOut),
        _ => Err(answer::BAD_LINE),
    }
}

/// 00 and the frame, or 01, the command and the count.
fn transfer_line(transfer: &Transfer<'_>) -> Vec<u8> {
    match transfer {
        Transfer::Write(frame) => [&[0x00], *frame].concat(),
        Transfer::Read { command, count } => {
            let count = u16::try_from(*count).expect("a read is at most 8,192 bytes");
            [&[0x01, *command], count.to_le_bytes().as_slice()].concat()
        }
    }
}

/// FF, answer and detail, or FE; then the waits, their milliseconds and a reading call's buffer.
fn last_line(answer: Option<Answer>, waits: u32, waited_ms: u32, buffer: Option<&[u8]>) -> Vec<u8> {
    let mut line = match answer {
        Some(Answer { number, detail }) => {
            let [low, high] = detail.to_le_bytes();
            vec![0xFF, number, low, high]
        }
        None => vec![0xFE],
    };
    line.extend(waits.to_le_bytes());
    line.extend(waited_ms.to_le_bytes());
    line.extend(buffer.unwrap_or_default());
    line
}
