//! Random calls with random outcomes.

use super::rng::Rng;
use super::step::{Replies, Step};
use super::{Sink, request, words};
use crate::line::Line;
use crate::list::Case;
use crate::request::{Kind, Request, Retries};

/// `cases` random cases; each depends on the seed and on its place only.
pub fn random(seed: u64, cases: u64, sink: Sink<'_>) {
    for place in 0..cases {
        let mut rng = Rng::new(seed, place);
        let request = with_any_budgets(any_request(&mut rng), &mut Rng::new(seed, !place));
        let title = format!("random: seed {seed}, case {place}: {}", words(&request));
        let line = any_line(&request, &mut rng);
        let mut mood = Mood::any(&request, &mut rng);
        let mut replies = Replies::new(&request, Rng::new(!seed, place));
        let (mut case, report) = Case::record(title, Some(line), |transfer| {
            let step = mood.step(transfer.asked(), &mut rng)?;
            Some(replies.line(&step, transfer))
        });
        if report.answer.is_some() && case.input.last().is_some_and(|line| line.ended) && rng.percent(2) {
            case.input.push(Line::of(&rng.bytes(3)));
        }
        sink(case, report);
    }
}

/// Any call with any setting; data flash comes more often than the others.
fn any_request(rng: &mut Rng) -> Request {
    let flash = [Kind::WriteDataflash, Kind::ReadDataflash];
    let kind = if rng.percent(20) { *rng.one_of(&flash) } else { *rng.one_of(&Kind::ALL) };
    let (number, length) = match kind {
        Kind::WriteDataflash | Kind::ReadDataflash => any_flash_range(rng),
        Kind::DispatchCommand => (any_command(rng), any_length(kind, rng)),
        _ => (rng.below(1 << 32) as u32, any_length(kind, rng)),
    };
    let mut request = request(kind, number, length, rng);
    request.number &= ((1u64 << (8 * kind.layout().number)) - 1) as u32;
    if kind == Kind::DispatchCommand && rng.percent(8) {
        let length = rng.between(1, 40);
        request.payload = rng.bytes(length);
    }
    request.pec_write = rng.percent(50);
    request.pec_read = rng.percent(50);
    request.growing_waits = rng.percent(25);
    request.retries = Retries::Both(any_retries(request.growing_waits, rng));
    request
}

/// The same call; one in four has two budgets, which are equal once in five times. `rng` is for them alone.
fn with_any_budgets(request: Request, rng: &mut Rng) -> Request {
    if !rng.percent(25) {
        return request;
    }
    let write = any_retries(request.growing_waits, rng);
    let read = if rng.percent(20) { write } else { any_retries(request.growing_waits, rng) };
    Request { retries: Retries::Each(write, read), ..request }
}

/// Where waits grow, enough for some of the longest.
fn any_retries(growing: bool, rng: &mut Rng) -> u16 {
    match rng.below(200) {
        0 => u16::MAX,
        1 => rng.below(1 << 16) as u16,
        _ => rng.below(if growing { 8 } else { 5 }) as u16,
    }
}

/// Half of them with 44 in front, as the gauge's own commands have.
fn any_command(rng: &mut Rng) -> u32 {
    let number = rng.below(1 << 32) as u32;
    if rng.percent(50) { number & 0xFFFF | 0x44_0000 } else { number }
}

/// A length around the limits of a kind.
fn any_length(kind: Kind, rng: &mut Rng) -> usize {
    match kind {
        Kind::WriteSecurityKeys if !rng.percent(10) => 28,
        Kind::WriteAuthenticationKey if !rng.percent(10) => 16,
        Kind::WriteChargingVoltageOverride if !rng.percent(5) => 10,
        _ => match rng.below(100) {
            0..70 => rng.between(0, 33),
            70..98 => rng.between(30, 42),
            98 => rng.between(0, 300),
            _ => *rng.one_of(&[64, 65, 256, 1024, 8191, 8192, 8193]),
        },
    }
}

/// An address and a length, mostly inside the window.
fn any_flash_range(rng: &mut Rng) -> (u32, usize) {
    let length = match rng.below(1000) {
        0..100 => rng.between(0, 3),
        100..700 => rng.between(1, 100),
        700..980 => *rng.one_of(&[31, 32, 33, 63, 64, 65, 95, 96, 97, 128, 129]),
        980..997 => rng.between(1, 600),
        _ => *rng.one_of(&[1000, 2048, 4097, 8160, 8191, 8192, 8193]),
    };
    let address = match rng.below(100) {
        0..75 => rng.between(0x4000, 0x6000 - length.clamp(1, 0x2000)),
        75..85 => 0x6000 - length.clamp(1, 0x2000),
        85..90 => 0x4000,
        90..96 => rng.between(0x6000 - length.min(0x2000), 0x6000),
        96..98 => *rng.one_of(&[0x0000, 0x3FFF, 0x4000, 0x5FFF, 0x6000, 0xE000, 0xFFFF]),
        _ => rng.below(0x10000),
    };
    (address as u32, length)
}

/// Mostly the good line of `request`.
fn any_line(request: &Request, rng: &mut Rng) -> Line {
    let mut bytes = request.to_bytes();
    let line = match rng.below(400) {
        0 => {
            bytes[0] = rng.byte();
            Line::of(&bytes)
        }
        1 => {
            bytes[1] = rng.byte();
            Line::of(&bytes)
        }
        2 => {
            bytes.truncate(rng.below(bytes.len()));
            Line::of(&bytes)
        }
        3 => Line::of(&[bytes, rng.bytes(1)].concat()),
        _ => Line::of(&bytes),
    };
    spoiled(line, 400, rng)
}

/// A line that is spoiled three times in `times`.
fn spoiled(mut line: Line, times: usize, rng: &mut Rng) -> Line {
    let length = line.text.len();
    match rng.below(times) {
        0 if length > 0 => line.text[rng.below(length)] = *rng.one_of(b"gG/:@`abcdef \r\t"),
        1 => line.text.insert(rng.below(length + 1), *rng.one_of(b"0123456789ABCDEFa \r")),
        2 if length > 0 => line = line.unended(),
        _ => {}
    }
    line
}

/// How a run goes: how often a transfer fails, and when the outcomes run out.
struct Mood {
    fails: usize,
    left: usize,
    /// Once in so many lines a reply has a wrong length or a line is spoiled.
    rarely: usize,
}

impl Mood {
    fn any(request: &Request, rng: &mut Rng) -> Self {
        let long = request.payload.len().max(usize::from(request.length)) / 32;
        let few = if rng.percent(85) { 60 + 4 * long } else { rng.below(8 + long) };
        Mood {
            fails: *rng.one_of(&[0, 5, 20, 40, 70, 97]),
            left: few,
            rarely: *rng.one_of(&[20, 1000, 100_000]),
        }
    }

    /// The next outcome in answer to a transfer that asked for `asked` bytes, unless they ran out.
    fn step(&mut self, asked: usize, rng: &mut Rng) -> Option<Step> {
        self.left = self.left.checked_sub(1)?;
        if rng.below(self.rarely) == 0 {
            return Some(odd_step(asked, rng));
        }
        if !rng.percent(self.fails) {
            return Some(Step::Good);
        }
        Some(match rng.below(3) {
            0 => Step::Error(rng.byte()),
            1 => Step::Timeout,
            _ => Step::BadPec,
        })
    }
}

/// A reply of a wrong length, or a line that is not an outcome.
fn odd_step(asked: usize, rng: &mut Rng) -> Step {
    match rng.below(6) {
        0 => Step::Bytes(asked + 1),
        1 => Step::Bytes(asked.saturating_sub(1)),
        2 => Step::Bytes(rng.below(40)),
        3 => Step::Said(Line::of(&rng.bytes(2))),
        4 => Step::Said(Line::of(&[0x02, rng.byte()])),
        _ => Step::Said(spoiled(Line::of(&[0x01, rng.byte()]), 3, rng)),
    }
}
