//! Every length and address on each side of a line, and every sort of bad line.

use std::collections::BTreeSet;

use super::rng::Rng;
use super::step::{Replies, Step};
use super::{Sink, request, with_budgets, with_setting, words};
use crate::bench::Report;
use crate::line::Line;
use crate::list::Case;
use crate::request::{Kind, RETIRED, Request};

/// Every boundary of every call, of the window, of the counts and of the lines.
pub fn boundaries(sink: Sink<'_>) {
    lengths(sink);
    window(sink);
    commands(sink);
    counts(sink);
    growing_waits(sink);
    codes(sink);
    bad_requests(sink);
    retired_requests(sink);
    bad_outcomes(sink);
    after_the_end(sink);
    two_budgets(sink);
    counts_of_two_budgets(sink);
    lengths_behind_two_budgets(sink);
    bad_requests_with_two_budgets(sink);
}

/// Outcomes that come first, and the one that comes ever after.
struct Play {
    name: &'static str,
    first: Vec<Step>,
    then: Option<Step>,
}

fn play(name: &'static str, first: &[Step], then: Option<Step>) -> Play {
    Play { name, first: first.to_vec(), then }
}

/// The plays that each boundary is tried with.
fn plays() -> [Play; 6] {
    [
        play("all good", &[], Some(Step::Good)),
        play("no outcomes", &[], None),
        play("the first fails", &[Step::Error(0x51)], Some(Step::Good)),
        play("the second times out", &[Step::Good, Step::Timeout], Some(Step::Good)),
        play("every PEC is bad", &[], Some(Step::BadPec)),
        play("all fail", &[], Some(Step::Error(0xFF))),
    ]
}

/// Gives the case of `request` under `play`.
fn give(section: &str, request: &Request, play: &Play, sink: Sink<'_>) -> u32 {
    let title = format!("{section}: {}: {}", words(request), play.name);
    let (case, report) = played(title, request, play);
    let transfers = report.transfers;
    sink(case, report);
    transfers
}

fn played(title: String, request: &Request, play: &Play) -> (Case, Report) {
    let mut replies = Replies::new(request, Rng::new(2, u64::from(request.number)));
    let mut first = play.first.iter();
    Case::record(title, Some(Line::of(&request.to_bytes())), |transfer| {
        let step = first.next().or(play.then.as_ref())?;
        Some(replies.line(step, transfer))
    })
}

/// Gives `request` under every play, or under one if it makes no transfer.
fn give_all(section: &str, request: &Request, plays: &[Play], sink: Sink<'_>) {
    for play in plays {
        if give(section, request, play, sink) == 0 {
            return;
        }
    }
}

/// A number that each kind's call goes through with.
const fn usual_number(kind: Kind) -> u32 {
    match kind {
        Kind::WriteDataflash | Kind::ReadDataflash => 0x4000,
        Kind::DispatchCommand => 0x0044_3500,
        Kind::SendAccessKey | Kind::WriteMfgInfoC => 0x3672_0414,
        _ => 0x0D,
    }
}

/// A length that each kind's call goes through with.
const fn usual_length(kind: Kind) -> usize {
    match kind {
        Kind::WriteDataflash | Kind::ReadDataflash => 40,
        Kind::WriteSecurityKeys => 28,
        Kind::WriteAuthenticationKey => 16,
        Kind::WriteChargingVoltageOverride => 10,
        _ => 2,
    }
}

fn usual(kind: Kind) -> Request {
    request(kind, usual_number(kind), usual_length(kind), &mut Rng::new(3, kind as u64))
}

/// Lengths around every limit of a call, and around the largest that a line may have.
const SMALL: [usize; 36] = [
    0, 1, 2, 3, 9, 10, 11, 15, 16, 17, 27, 28, 29, 30, 31, 32, 33, 34, 35, 36, 37, 38, 39, 40, 41, 63, 64,
    65, 95, 96, 97, 127, 128, 255, 256, 257,
];
const LARGE: [usize; 3] = [8191, 8192, 8193];

/// Every call at lengths around every limit there is.
fn lengths(sink: Sink<'_>) {
    for kind in Kind::ALL.into_iter().filter(|kind| has_length(*kind)) {
        for length in SMALL {
            each_length(kind, length, &[0, 1], &plays(), sink);
        }
        for length in LARGE {
            each_length(kind, length, &[1], &plays()[..3], sink);
        }
    }
}

/// Whether a request line of this kind has a part of a free length.
const fn has_length(kind: Kind) -> bool {
    kind.layout().length || kind.layout().payload
}

fn each_length(kind: Kind, length: usize, retries: &[u16], plays: &[Play], sink: Sink<'_>) {
    let sized = request(kind, usual_number(kind), length, &mut Rng::new(4, length as u64));
    for flags in 0..4 {
        for retries in retries {
            give_all(&format!("length {length}"), &with_setting(&sized, flags, *retries), plays, sink);
        }
    }
}

/// Data flash at addresses and lengths on each side of the window and of the sum's end.
fn window(sink: Sink<'_>) {
    let addresses = [
        0x0000, 0x0001, 0x3FDF, 0x3FE0, 0x3FFE, 0x3FFF, 0x4000, 0x4001, 0x4020, 0x5FDE, 0x5FDF, 0x5FE0,
        0x5FE1, 0x5FFE, 0x5FFF, 0x6000, 0x6001, 0x7FFF, 0x8000, 0xBFFF, 0xC000, 0xDFFF, 0xE000, 0xE001,
        0xFFDF, 0xFFE0, 0xFFFE, 0xFFFF,
    ];
    let lengths = [0, 1, 2, 31, 32, 33, 34, 64, 65, 8159, 8160, 8191, 8192, 8193];
    for kind in [Kind::WriteDataflash, Kind::ReadDataflash] {
        for address in addresses {
            for length in lengths {
                let request = request(kind, address, length, &mut Rng::new(5, length as u64));
                for flags in 0..4 {
                    let section = format!("window {address:04X} with {length}");
                    give_all(&section, &with_setting(&request, flags, 0), &plays()[..2], sink);
                }
            }
        }
    }
}

/// Commands with input and output on each side of their limits, and addresses with every byte in use.
fn commands(sink: Sink<'_>) {
    let lengths = [0, 1, 2, 31, 32, 33, 34, 64, 8192, 8193];
    for output in lengths {
        for input in lengths {
            let mut request = request(Kind::DispatchCommand, 0x0044_3500, output, &mut Rng::new(6, 0));
            request.payload = Rng::new(6, input as u64).bytes(input);
            for flags in 0..4 {
                let section = format!("command input {input} output {output}");
                give_all(&section, &with_setting(&request, flags, 1), &plays()[..2], sink);
            }
        }
    }
    for address in
        [0, 0x44, 0x4400, 0x44_0000, 0x4400_0000, 0x0102_0304, 0xFF44_FFFF, 0xFFFF_FFFF, 0x8000_0001]
    {
        for output in [0, 1, 4] {
            let request = request(Kind::DispatchCommand, address, output, &mut Rng::new(6, 0));
            for flags in 0..4 {
                let section = format!("command {address:08X}");
                give_all(&section, &with_setting(&request, flags, 1), &plays(), sink);
            }
        }
    }
}

/// Retries whose count needs its high byte, and waits that need more than two bytes.
fn counts(sink: Sink<'_>) {
    for retries in [3, 255, 256, 257, 512] {
        for kind in Kind::ALL {
            last_allowed(&with_setting(&usual(kind), 3, retries), sink);
        }
    }
    for kind in [Kind::PlainWrite, Kind::ReadRegister, Kind::ReadDataflash] {
        for flags in [0, 8] {
            last_allowed(&with_setting(&usual(kind), flags, u16::MAX), sink);
        }
    }
    let spent = failures(usize::from(u16::MAX));
    let late = [&spent[..], &[Step::Good]].concat();
    let both_late = play("each block at its last attempt", &[&late[..], &late].concat(), None);
    let second_fails = play("the second block fails", &[&late[..], &spent, &[Step::Timeout]].concat(), None);
    for flags in [0, 8] {
        let two_blocks = with_setting(&usual(Kind::WriteDataflash), flags, u16::MAX);
        give("count 65535", &two_blocks, &both_late, sink);
        give("count 65535", &two_blocks, &second_fails, sink);
    }
}

/// A call that spends its whole budget, and one that fails once more.
fn last_allowed(request: &Request, sink: Sink<'_>) {
    let section = format!("count {}", request.budget());
    for (name, more) in [("as many as allowed", 0), ("one too many", 1)] {
        let first = failures(usize::from(request.budget()) + more);
        give(&section, request, &play(name, &first, Some(Step::Good)), sink);
    }
}

fn failures(count: usize) -> Vec<Step> {
    vec![Step::Error(0x33); count]
}

/// Waits that grow: a write of three blocks, other writes, reads with and without a frame in front. The budget is as large as the
/// failures that come together, or one smaller, or suffices for all.
fn growing_waits(sink: Sink<'_>) {
    let calls = [
        (Kind::WriteDataflash, 65),
        (Kind::WriteMfgInfoC, 1),
        (Kind::WriteRegister, 1),
        (Kind::ReadRegister, 1),
        (Kind::ReadDataflash, 65),
        (Kind::ReadMfgInfoC, 1),
    ];
    for (kind, length) in calls {
        let call = request(kind, usual_number(kind), length, &mut Rng::new(8, kind as u64));
        for flags in [8, 9, 10, 11] {
            for count in [0, 1, 3, 4, 6] {
                for retries in BTreeSet::from([count.max(1) - 1, count, 3 * count]) {
                    for play in failing_plays(usize::from(count)) {
                        let section = format!("growing waits, {count} failures");
                        give(&section, &with_setting(&call, flags, retries), &play, sink);
                    }
                }
            }
        }
    }
}

/// So many failures together, at one place and at several, and the outcomes that end in between.
fn failing_plays(count: usize) -> [Play; 7] {
    let spell = failures(count);
    let last = &spell[count.min(1)..];
    let three = [&spell[..], &[Step::Good], &spell, &[Step::Good], &spell].concat();
    let bad_reads = vec![[Step::Good, Step::BadPec]; count].concat();
    [
        play("at the start", &spell, Some(Step::Good)),
        play("after the first", &[&[Step::Good], &spell[..]].concat(), Some(Step::Good)),
        play("after the second", &[&[Step::Good, Step::Good], &spell[..]].concat(), Some(Step::Good)),
        play("three times", &three, Some(Step::Good)),
        play("at each second transfer, with a bad PEC", &bad_reads, Some(Step::Good)),
        play("as bad PECs", &vec![Step::BadPec; count], Some(Step::Good)),
        play("twice, then no outcomes", &[&spell[..], &[Step::Good], last].concat(), None),
    ]
}

/// Bus error codes, and each sort of failure as the last.
fn codes(sink: Sink<'_>) {
    let endings = [0x00, 0x01, 0x02, 0x7F, 0x80, 0xFE, 0xFF].map(Step::Error);
    for kind in Kind::ALL {
        for flags in 0..4 {
            for last in endings.iter().chain([&Step::Timeout, &Step::BadPec]) {
                for before in [Step::Error(0x99), Step::Timeout, Step::BadPec] {
                    let name = "two failures";
                    let request = with_setting(&usual(kind), flags, 1);
                    give("code", &request, &play(name, &[before.clone(), last.clone()], None), sink);
                    let later = [Step::Good, before, last.clone()];
                    give("code", &request, &play(name, &later, None), sink);
                }
            }
        }
    }
}

/// A run whose request line is any line at all.
fn give_request(sort: &str, name: &str, line: Option<Line>, sink: Sink<'_>) {
    let title = format!("request, {sort}: {name}");
    let (case, report) = Case::record(title.clone(), line.clone(), |_| None);
    let waits_for_more = report.answer.is_none();
    sink(case, report);
    if waits_for_more {
        let (case, report) = Case::record(title + ", then a timeout", line, |_| Some(Line::of(&[0x02])));
        sink(case, report);
    }
}

/// Request lines of every bad sort.
fn bad_requests(sink: Sink<'_>) {
    give_whole_line("no input", None, sink);
    give_whole_line("an empty line", Some(Line::raw("")), sink);
    for number in 0..=255 {
        for rest in ["000000", "00000000", "0000004000", "0000000040AA", "000000004000002000"] {
            give_whole_line("kinds", Some(Line::raw(format!("{number:02X}{rest}"))), sink);
        }
    }
    for kind in Kind::ALL {
        bad_texts(kind, sink);
        all_flags("flags", &usual(kind), sink);
        if has_length(kind) {
            bad_lengths(kind, sink);
        }
    }
}

/// What may stand behind a retired kind, each with its sort; nothing of it is looked at.
const BEHIND_RETIRED: [(&str, &str); 14] = [
    ("nothing else", ""),
    ("an old read", "030100120200"),
    ("an old write", "03010012AABB"),
    ("a short header", "00"),
    ("a bad setting", "FF0000120200"),
    ("two budgets", "0400000100120200"),
    ("one budget of two", "04000012"),
    ("too many arguments", "000000120200000000"),
    ("an odd number of digits", "0"),
    ("no digits", "ZZ"),
    ("lower case", "000000aa"),
    ("a space", " 000000120200"),
    ("a carriage return", "000000120200\r"),
    ("a control character", "\0"),
];

/// Lines that begin with a retired kind, and some that nearly do.
fn retired_requests(sink: Sink<'_>) {
    for kind in RETIRED {
        for (sort, rest) in BEHIND_RETIRED {
            let line = Line::raw(format!("{kind}{rest}"));
            give_request(&format!("retired, {sort}"), kind, Some(line.clone()), sink);
            give_request(&format!("retired, {sort}, no line feed"), kind, Some(line.unended()), sink);
        }
        for (sort, digits) in [("20,000 digits", 20_000), ("100,000 digits", 100_000)] {
            let line = Line::raw([kind.as_bytes(), &vec![b'0'; digits]].concat());
            give_request(&format!("retired, {sort}"), kind, Some(line.clone()), sink);
            give_request(&format!("retired, {sort}, no line feed"), kind, Some(line.unended()), sink);
        }
        for near in [kind.to_lowercase(), format!(" {kind}"), format!("0{kind}"), format!("1{}", &kind[1..])]
        {
            give_request("nearly retired", kind, Some(Line::raw(near + "000000120200")), sink);
        }
    }
}

/// A run of a request line that belongs to no kind in particular.
fn give_whole_line(sort: &str, line: Option<Line>, sink: Sink<'_>) {
    give_request(sort, "any kind", line, sink);
}

/// Changes in the characters of a good line.
fn bad_texts(kind: Kind, sink: Sink<'_>) {
    let good = Line::of(&usual(kind).to_bytes());
    let text = good.text.clone();
    let mut give = |sort, line| give_request(sort, &kind.name(), Some(line), sink);
    give("no line feed", good.clone().unended());
    give("lower case", Line::raw(text.to_ascii_lowercase()));
    give("good", good);
    for cut in 0..text.len().min(40) {
        give("cut short", Line::raw(&text[..cut]));
        if cut > 0 {
            give("cut short, no line feed", Line::raw(&text[..cut]).unended());
        }
    }
    for extra in turned(&["0", "00", "0000", "AA", " ", "\r", "\t", "  ", "\r\r", "G", "0x", "\0\0"], kind) {
        give("more behind", Line::raw([&text, extra.as_bytes()].concat()));
        give("more in front", Line::raw([extra.as_bytes(), &text].concat()));
    }
    let places: Vec<usize> = (0..text.len().min(24)).collect();
    for place in turned(&places, kind) {
        for character in turned(b"gG/:@`afx +-.\r\t\0\x7F\x80\xC1\xFF", kind) {
            let mut changed = text.clone();
            changed[place] = character;
            give("a wrong character", Line::raw(changed));
        }
    }
}

/// `items` from another start for each kind, so that the first ones differ.
fn turned<T: Copy>(items: &[T], kind: Kind) -> Vec<T> {
    let mut turned = items.to_vec();
    turned.rotate_left(kind as usize % items.len());
    turned
}

/// Every flags byte, in an order that has the high bits in front.
fn all_flags(sort: &str, request: &Request, sink: Sink<'_>) {
    let each: Vec<u8> = (0..=255).map(u8::reverse_bits).collect();
    for flags in turned(&each, request.kind) {
        let mut bytes = request.to_bytes();
        bytes[1] = flags;
        give_request(sort, &request.kind.name(), Some(Line::of(&bytes)), sink);
    }
}

/// Lengths that no line may have, also where the call itself would refuse.
fn bad_lengths(kind: Kind, sink: Sink<'_>) {
    let mut rng = Rng::new(7, kind as u64);
    let mut give = |sort, number, length| {
        let bytes = request(kind, number, length, &mut rng).to_bytes();
        give_request(sort, &kind.name(), Some(Line::of(&bytes)), sink);
    };
    for length in [33, 8191, 8192, 8193, 8194, 16384, 32767, 32768, 65535] {
        give("a long argument", 0x3FFF, length);
    }
    for length in 0..=12 {
        give("a short argument", usual_number(kind), length);
    }
    give_request("100,000 digits", &kind.name(), Some(Line::raw(vec![b'0'; 100_000])), sink);
}

/// Outcome lines of every bad sort, and replies of wrong lengths, at several places of a run.
fn bad_outcomes(sink: Sink<'_>) {
    let fronts: [&[Step]; 6] = [
        &[],
        &[Step::Good],
        &[Step::Error(0x11)],
        &[Step::Good, Step::Timeout],
        &[Step::Good, Step::Good],
        &[Step::Good, Step::Good, Step::BadPec],
    ];
    for kind in Kind::ALL {
        for flags in [0, 3] {
            for front in fronts {
                let request = with_setting(&usual(kind), flags, 2);
                if transfers_behind(&request, front) {
                    bad_lines(&request, front, sink);
                }
            }
        }
    }
}

/// Whether the call makes another transfer after `front`.
fn transfers_behind(request: &Request, front: &[Step]) -> bool {
    let (_, report) = played(String::new(), request, &play("", front, None));
    report.answer.is_none() && report.transfers as usize == front.len() + 1
}

/// Outcome lines that are none, each with its sort.
const BAD_OUTCOMES: [(&str, &[&str]); 11] = [
    ("an empty line", &[""]),
    ("an odd number of digits", &["0", "1", "2", "000", "01FFF"]),
    (
        "an unknown first byte",
        &["03", "04", "0C", "0D", "0F", "10", "20", "7F", "80", "FD", "FE", "FF", "0300"],
    ),
    ("no code", &["01"]),
    ("more than a code", &["010203", "01000000"]),
    ("more than a timeout", &["0200", "0201", "020202"]),
    ("a space", &["02 ", " 00", "00 ", "0 2", "0100 ", " 02", "00 00"]),
    ("a carriage return", &["02\r", "00\r", "01FF\r", "\r", "\r\r"]),
    ("lower case", &["00aa", "00AAa", "00AAaa", "01fF", "01Ff", "01ff"]),
    ("a wrong character", &["0g", "0G", "0/", "0:", "0@", "0`", "/0", ":0", "@0", "`0", "+0", "-2", "0x00"]),
    ("a control character", &["\t02", "02\t", "\0\0", "0\u{7f}", "\u{c1}"]),
];

fn bad_lines(request: &Request, front: &[Step], sink: Sink<'_>) {
    for (sort, texts) in BAD_OUTCOMES {
        for text in turned(texts, request.kind) {
            give_last(request, front, Step::Said(Line::raw(text)), sort, sink);
        }
    }
    for text in turned(&["0", "00", "01FF", "02", "00AA"], request.kind) {
        give_last(request, front, Step::Said(Line::raw(text).unended()), "no line feed", sink);
    }
    for count in [0, 1, 2, 3, 4, 5, 6, 13, 14, 19, 20, 31, 32, 33, 34, 35, 36, 37, 64] {
        give_last(request, front, Step::Bytes(count), "a short reply", sink);
    }
    if front.is_empty() {
        let digits = Line::raw(vec![b'0'; 100_000]);
        give_last(request, front, Step::Said(digits), "100,000 digits", sink);
    }
    for count in [8192, 8193, 9000] {
        give_last(request, front, Step::Bytes(count), &format!("a reply of {count}"), sink);
    }
}

/// A run that ends with `last` behind `front`.
fn give_last(request: &Request, front: &[Step], last: Step, sort: &str, sink: Sink<'_>) {
    let steps = [front, &[last]].concat();
    give(&format!("outcome, {sort}"), request, &play("the last line", &steps, None), sink);
}

/// Lines behind the end of a call, which nobody reads.
fn after_the_end(sink: Sink<'_>) {
    let tails = [
        vec![Line::raw("")],
        vec![Line::of(&[0x00]), Line::of(&[0x01])],
        vec![Line::raw("no hexadecimal at all\r")],
        vec![Line::raw("02").unended()],
        vec![Line::raw("xyz"), Line::raw("0").unended()],
    ];
    for kind in Kind::ALL {
        for then in [Step::Good, Step::Timeout] {
            for tail in &tails {
                let request = with_setting(&usual(kind), 3, 1);
                let title = format!("after the end: {}", words(&request));
                let (mut case, report) = played(title, &request, &play("", &[], Some(then.clone())));
                assert!(report.answer.is_some(), "the call ends under a play that goes on");
                case.input.extend(tail.iter().cloned());
                sink(case, report);
            }
        }
    }
    for (name, text) in [("a bad request", "0g"), ("a retired request", "0C")] {
        let refused = Line::raw(text);
        let (mut case, report) = Case::record(format!("after the end: {name}"), Some(refused), |_| None);
        case.input.push(Line::of(&usual(Kind::ReadDataflash).to_bytes()));
        sink(case, report);
    }
}

/// Every call that goes through, a command with output and one with none.
fn calls_of_both_sides() -> Vec<Request> {
    let silent = request(Kind::DispatchCommand, usual_number(Kind::DispatchCommand), 0, &mut Rng::new(9, 0));
    Kind::ALL.into_iter().map(usual).chain([silent]).collect()
}

/// Two budgets, one of them 0 or smaller by one than the other, and two that are equal: of each call 1, 2 and 3 failures together, so that
/// it shows which budget it goes by.
fn two_budgets(sink: Sink<'_>) {
    for call in calls_of_both_sides() {
        for budgets in [(0, 2), (2, 0), (1, 2), (2, 1), (2, 2)] {
            for flags in [0, 3, 8, 11] {
                for play in (1..=3).flat_map(failing_plays) {
                    give("two budgets", &with_budgets(&call, flags, budgets), &play, sink);
                }
            }
        }
    }
}

/// Two budgets whose counts need their high bytes, each spent to the last and once more.
fn counts_of_two_budgets(sink: Sink<'_>) {
    for budgets in [(255, 256), (256, 255), (1, 257), (257, 1), (0, 512), (512, 0)] {
        for call in calls_of_both_sides() {
            last_allowed(&with_budgets(&call, 3, budgets), sink);
        }
    }
    for budgets in [(0, u16::MAX), (u16::MAX, 0)] {
        for kind in [Kind::PlainWrite, Kind::ReadRegister, Kind::ReadDataflash] {
            last_allowed(&with_budgets(&usual(kind), 0, budgets), sink);
        }
    }
}

/// Every call at every length, where its arguments stand behind two budgets; the longest line there is, a command with its largest input.
fn lengths_behind_two_budgets(sink: Sink<'_>) {
    for kind in Kind::ALL.into_iter().filter(|kind| has_length(*kind)) {
        for length in SMALL.into_iter().chain(LARGE) {
            let sized = request(kind, usual_number(kind), length, &mut Rng::new(4, length as u64));
            for flags in [0, 3] {
                let section = format!("length {length}, two budgets");
                give_all(&section, &with_budgets(&sized, flags, (1, 0)), &plays()[..2], sink);
            }
        }
    }
    for input in LARGE {
        let mut longest = usual(Kind::DispatchCommand);
        longest.payload = Rng::new(6, input as u64).bytes(input);
        let line = Line::of(&with_budgets(&longest, 0, (1, 0)).to_bytes());
        give_request(&format!("two budgets, an input of {input}"), &longest.kind.name(), Some(line), sink);
    }
}

/// Request lines with two budgets that are cut short, that have more behind, or that set other flags.
fn bad_requests_with_two_budgets(sink: Sink<'_>) {
    for call in calls_of_both_sides() {
        let good = with_budgets(&call, 0, (2, 1));
        let text = Line::of(&good.to_bytes()).text;
        let mut give = |sort: &str, line| {
            give_request(&format!("two budgets, {sort}"), &call.kind.name(), Some(line), sink);
        };
        for cut in 2..text.len().min(44) {
            let sort = if cut % 2 == 0 { format!("{} bytes", cut / 2) } else { "a digit too few".into() };
            give(&sort, Line::raw(&text[..cut]));
            give("cut short, no line feed", Line::raw(&text[..cut]).unended());
        }
        for extra in ["00", "0000", "0", " ", "\r"] {
            give("more behind", Line::raw([&text, extra.as_bytes()].concat()));
        }
        give("no line feed", Line::raw(&text[..]).unended());
        give("lower case", Line::raw(text.to_ascii_lowercase()));
        all_flags("flags, two budgets", &good, sink);
    }
}
