//! The panics of the Rust: where they are met, and the smallest input for each.

use std::cell::RefCell;
use std::collections::BTreeMap;
use std::fmt;
use std::io::{self, Write};
use std::panic::{PanicHookInfo, set_hook, take_hook};
use std::sync::Once;

use crate::line::Line;
use crate::list::Case;
use crate::request::{Kind, Request, Retries};

/// Where the Rust panicked, and what it said.
#[derive(Debug, Clone, PartialEq, Eq)]
pub struct Panic {
    pub place: String,
    pub message: String,
}

impl fmt::Display for Panic {
    fn fmt(&self, out: &mut fmt::Formatter<'_>) -> fmt::Result {
        write!(out, "{}: {}", self.place, self.message)
    }
}

/// Whether a panic is noted in silence, and the one that was.
enum Note {
    Off,
    On(Option<Panic>),
}

thread_local! {
    static NOTE: RefCell<Note> = const { RefCell::new(Note::Off) };
}

/// What `action` gives, or the panic that it met and caught.
pub(crate) fn noted<T>(action: impl FnOnce() -> Result<T, ()>) -> Result<T, Panic> {
    static HOOK: Once = Once::new();
    HOOK.call_once(|| {
        let usual = take_hook();
        set_hook(Box::new(move |info| {
            if !take_note(info) {
                usual(info);
            }
        }));
    });
    NOTE.set(Note::On(None));
    let outcome = action();
    match (outcome, NOTE.replace(Note::Off)) {
        (Ok(value), _) => Ok(value),
        (Err(()), Note::On(Some(panic))) => Err(panic),
        (Err(()), _) => unreachable!("the hook sees each panic"),
    }
}

/// Keeps the panic in mind, if notes are taken on this thread.
fn take_note(info: &PanicHookInfo<'_>) -> bool {
    NOTE.with_borrow_mut(|note| {
        let Note::On(panic) = note else { return false };
        let place = info.location().map_or_else(String::new, |location| {
            let file = location.file();
            let name = file.find("/out/src/").map_or(file, |at| &file[at + "/out/src/".len()..]);
            format!("{name}:{}", location.line())
        });
        let message = info.payload_as_str().unwrap_or_default().to_owned();
        *panic = Some(Panic { place, message });
        true
    })
}

/// Prints each place where the Rust panics: the call, its smallest input, the panic, document 01's answer.
pub fn print(out: &mut impl Write) -> io::Result<()> {
    for kind in Kind::ALL {
        for found in of_kind(kind).values() {
            let Found { line, panic, answer } = found;
            let (name, line) = (kind.name(), String::from_utf8_lossy(line));
            writeln!(out, "{name}\n  input   {line}\n  panic   {panic}\n  answer  {answer}")?;
        }
    }
    Ok(())
}

/// The smallest input of a panic, and the answer in its place.
struct Found {
    line: Vec<u8>,
    panic: Panic,
    answer: u8,
}

/// The panics of one call by their place, over all flags and over lengths beyond every array.
fn of_kind(kind: Kind) -> BTreeMap<String, Found> {
    let layout = kind.layout();
    let lengths = |has: bool| 0..=if has { 80 } else { 0 };
    let mut panics = BTreeMap::new();
    for payload in lengths(layout.payload) {
        for length in lengths(layout.length) {
            for flags in 0..4 {
                try_out(&zeros(kind, flags, length, usize::from(payload)), &mut panics);
            }
        }
    }
    panics
}

/// A call of data flash's first address, or of 0, with zeros.
fn zeros(kind: Kind, flags: u8, length: u16, payload: usize) -> Request {
    Request {
        kind,
        pec_write: flags & 1 != 0,
        pec_read: flags & 2 != 0,
        growing_waits: false,
        retries: Retries::Both(0),
        number: if kind.layout().number == 2 { 0x4000 } else { 0 },
        length,
        payload: vec![0; payload],
    }
}

/// Runs a call to its end under each sort of outcome, and keeps a panic whose place is new.
fn try_out(request: &Request, panics: &mut BTreeMap<String, Found>) {
    let outcomes: [fn(usize) -> Vec<u8>; 3] =
        [|asked| vec![0x00; 1 + asked], |_| vec![0x01, 0x00], |_| vec![0x02]];
    let line = Line::of(&request.to_bytes());
    for outcome in outcomes {
        let (_, report) = Case::record(String::new(), Some(line.clone()), |transfer| {
            Some(Line::of(&outcome(transfer.asked())))
        });
        if let (Some(panic), Some(answer)) = (report.panic, report.answer) {
            let found = || Found { line: line.text.clone(), panic: panic.clone(), answer: answer.number };
            panics.entry(panic.place.clone()).or_insert_with(found);
        }
    }
}
