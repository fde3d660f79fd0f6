//! Every list of outcomes to a depth, for every call and setting.

use super::rng::Rng;
use super::step::{Replies, Step};
use super::{Sink, request, with_budgets, with_setting, words};
use crate::bus::Transfer;
use crate::line::Line;
use crate::list::Case;
use crate::request::{Kind, Request};

/// At this depth every list goes to the call's end.
pub const DEPTH: usize = 11;

/// Every call with every setting and every list of at most `depth` outcomes.
pub fn exhaustive(depth: usize, sink: Sink<'_>) {
    for (number, request) in requests().into_iter().enumerate() {
        explore(&request, number as u64, depth, &mut Vec::new(), sink);
    }
}

/// The case of `steps`, and those of every list that goes on from it.
fn explore(request: &Request, number: u64, depth: usize, steps: &mut Vec<Step>, sink: Sink<'_>) {
    let mut replies = Replies::new(request, Rng::new(0, number));
    let mut given = steps.iter();
    let mut next_steps = Vec::new();
    let line = Line::of(&request.to_bytes());
    let (case, report) = Case::record(title(request, steps), Some(line), |transfer| {
        let Some(step) = given.next() else {
            next_steps = choices(&replies, transfer, steps.len());
            return None;
        };
        Some(replies.line(step, transfer))
    });
    sink(case, report);
    if steps.len() == depth {
        return;
    }
    for step in next_steps {
        steps.push(step);
        explore(request, number, depth, steps, sink);
        steps.pop();
    }
}

fn title(request: &Request, steps: &[Step]) -> String {
    let steps: Vec<String> = steps.iter().map(Step::words).collect();
    format!("exhaustive: {}: {}", words(request), steps.join(", "))
}

/// The outcomes that `transfer` can have; error codes tell the places apart.
fn choices(replies: &Replies, transfer: &Transfer<'_>, place: usize) -> Vec<Step> {
    let mut choices = vec![Step::Good, Step::Error(0xE0 + place as u8), Step::Timeout];
    if replies.looks_at_pec(transfer) {
        choices.push(Step::BadPec);
    }
    choices
}

/// Every call at lengths that differ in their transfers, with every flag and 0 to 2 retries; then those with more retries, and those with two
/// budgets.
fn requests() -> Vec<Request> {
    let mut requests = Vec::new();
    for (place, (kind, number, length)) in shapes().into_iter().enumerate() {
        let shape = request(kind, number, length, &mut Rng::new(1, place as u64));
        for flags in [0, 1, 2, 3, 8, 9, 10, 11] {
            requests.extend((0..3).map(|retries| with_setting(&shape, flags, retries)));
        }
    }
    requests.extend(patient_requests());
    requests.extend(requests_with_two_budgets());
    requests
}

/// Calls of each sort with retries for the longer of the waits that grow.
fn patient_requests() -> Vec<Request> {
    let table: [(Kind, u32, usize, &[u16]); 6] = [
        (Kind::WriteRegister, 0x0D, 1, &[3, 4, 5]),
        (Kind::SendAccessKey, 0x3672_0414, 0, &[3, 4]),
        (Kind::WriteDataflash, 0x4000, 33, &[3, 4]),
        (Kind::ReadRegister, 0x0D, 1, &[3, 4, 5]),
        (Kind::ReadMfgInfoC, 0, 1, &[3, 4]),
        (Kind::ReadDataflash, 0x5F00, 33, &[3, 4]),
    ];
    let mut requests = Vec::new();
    for (place, (kind, number, length, patience)) in table.into_iter().enumerate() {
        let shape = request(kind, number, length, &mut Rng::new(2, place as u64));
        for flags in [8, 11] {
            requests.extend(patience.iter().map(|retries| with_setting(&shape, flags, *retries)));
        }
    }
    requests
}

/// Every call with a budget for one side alone, where each PEC may be on, and with two that are equal or differ by one.
fn requests_with_two_budgets() -> Vec<Request> {
    let mut requests = Vec::new();
    for (place, (kind, number, length)) in shapes().into_iter().enumerate() {
        let shape = request(kind, number, length, &mut Rng::new(3, place as u64));
        for flags in 0..4 {
            requests.extend([(0, 2), (2, 0)].map(|budgets| with_budgets(&shape, flags, budgets)));
        }
        for flags in [0, 11] {
            requests.extend([(1, 1), (1, 2), (2, 1)].map(|budgets| with_budgets(&shape, flags, budgets)));
        }
    }
    requests
}

/// Kind, number, and the length of the payload or of the buffer.
fn shapes() -> Vec<(Kind, u32, usize)> {
    let table: [(Kind, &[u32], &[usize]); 19] = [
        (Kind::WriteDataflash, &[0x4000], &[0, 1, 32, 33, 64, 65]),
        (Kind::ReadDataflash, &[0x5F00], &[0, 1, 32, 33, 64, 65]),
        (Kind::WriteRegister, &[0x0D], &[0, 1, 32]),
        (Kind::ReadRegister, &[0x0D], &[0, 1, 32]),
        (Kind::DispatchCommand, &[0xA545_0035, 0x0044_3500], &[0, 1, 32]),
        (Kind::BufferRead, &[0x20], &[0, 1, 33]),
        (Kind::BufferWrite, &[0x20], &[0, 1, 33]),
        (Kind::ReadSecurityKeys, &[0], &[0]),
        (Kind::WriteSecurityKeys, &[0], &[28]),
        (Kind::ReadAuthenticationKey, &[0], &[0]),
        (Kind::WriteAuthenticationKey, &[0], &[16]),
        (Kind::SendAccessKey, &[0x3672_0414], &[0]),
        (Kind::ReadMfgInfoC, &[0], &[0, 1, 32]),
        (Kind::WriteMfgInfoC, &[0x5D89_3C45], &[0, 1, 32]),
        (Kind::ReadMfgInfo, &[0], &[0, 1, 33]),
        (Kind::WriteMfgInfo, &[0], &[0, 1, 32]),
        (Kind::ReadChargingVoltageOverride, &[0], &[0]),
        (Kind::WriteChargingVoltageOverride, &[0], &[10]),
        (Kind::PlainWrite, &[0], &[0, 1, 38, 39]),
    ];
    let each = |(kind, numbers, lengths): (Kind, &'static [u32], &'static [usize])| {
        numbers.iter().flat_map(move |number| lengths.iter().map(move |length| (kind, *number, *length)))
    };
    table.into_iter().flat_map(each).collect()
}
