//! Lists that the generators write are read back and answered the same.

use std::collections::BTreeSet;

use oracle::bench::Report;
use oracle::generate;
use oracle::line::Line;
use oracle::list::{self, Case};
use oracle::request::{Kind, Request, Retries, Side};

/// The list that a generator writes, and the number of its cases.
fn list_of(generator: impl FnOnce(generate::Sink<'_>)) -> (Vec<u8>, u64) {
    let (mut text, mut cases) = (Vec::new(), 0);
    generator(&mut |case: Case, _: Report| {
        case.write(&mut text).expect("memory can be written");
        cases += 1;
    });
    (text, cases)
}

fn replays(generator: impl FnOnce(generate::Sink<'_>)) {
    let (text, cases) = list_of(generator);
    let replayed = list::replay(&mut text.as_slice()).expect("a generator writes good lists");
    assert_eq!(replayed.cases, cases);
    assert!(replayed.first.is_none(), "{:?}", replayed.first);
}

#[test]
fn the_sample_replays() {
    replays(generate::sample);
}

#[test]
fn random_cases_replay() {
    replays(|sink| generate::random(5, 20_000, sink));
}

#[test]
fn the_exhaustive_list_is_complete_at_its_usual_depth() {
    let (_, usual) = list_of(|sink| generate::exhaustive(generate::DEPTH, sink));
    let (_, deeper) = list_of(|sink| generate::exhaustive(30, sink));
    assert_eq!(usual, deeper);
}

#[test]
fn the_sample_has_every_answer_and_fits_a_repository() {
    let mut numbers = [0; 16];
    let mut waiting = 0;
    generate::sample(&mut |_, report| match report.answer {
        Some(answer) => numbers[usize::from(answer.number)] += 1,
        None => waiting += 1,
    });
    let missing: Vec<usize> = (0..16).filter(|number| numbers[*number] == 0).collect();
    assert_eq!(
        missing,
        [10, 12, 13, 14],
        "an ended call takes no outcome on the bench, and 12 to 14 are no answers"
    );
    assert!(waiting > 0);
    assert!(list_of(generate::sample).0.len() < 1_900_000);
}

#[test]
fn the_sample_tells_the_two_budgets_of_each_call_apart() {
    let mut told_apart = BTreeSet::new();
    generate::sample(&mut |mut case, _| {
        let bytes = case.input.first().and_then(Line::bytes).unwrap_or_default();
        let Some(mut request) = Request::from_bytes(&bytes) else { return };
        let Retries::Each(write, read) = request.retries else { return };
        request.retries = Retries::Each(read, write);
        case.input[0] = Line::of(&request.to_bytes());
        if case.answered() != case.output {
            told_apart.insert((request.kind, request.side() == Side::Write));
        }
    });
    assert_eq!(told_apart.len(), Kind::ALL.len() + 1, "a command is a write or a read: {told_apart:?}");
}
