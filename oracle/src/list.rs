//! Lists of cases: `# ` and words, `I ` or `U ` and each input line, `O ` and each output line, an empty line.

use std::io::{self, BufRead, Write};

use crate::bench::{self, Host, Report};
use crate::bus::Transfer;
use crate::line::{Line, hex};

/// One run of the bench: what went in and what came out.
#[derive(Debug, Default, Clone, PartialEq, Eq)]
pub struct Case {
    pub title: String,
    pub input: Vec<Line>,
    /// The printed lines, without their line feeds.
    pub output: Vec<Vec<u8>>,
}

impl Case {
    /// Writes the case as a part of a list.
    pub fn write(&self, out: &mut impl Write) -> io::Result<()> {
        writeln!(out, "# {}", self.title)?;
        for line in &self.input {
            write_line(out, if line.ended { b"I " } else { b"U " }, &line.text)?;
        }
        for text in &self.output {
            write_line(out, b"O ", text)?;
        }
        out.write_all(b"\n")
    }

    /// The next case of a list, unless there are no more.
    pub fn read(list: &mut impl BufRead) -> io::Result<Option<Self>> {
        let mut case = Case::default();
        let mut opened = false;
        loop {
            let mut line = Vec::new();
            if list.read_until(b'\n', &mut line)? == 0 {
                return if opened { Err(malformed("a case without its empty line")) } else { Ok(None) };
            }
            if line.pop() != Some(b'\n') {
                return Err(malformed("a line without its line feed"));
            }
            match (opened, line.as_slice()) {
                (true, []) => return Ok(Some(case)),
                (false, [b'#', b' ', words @ ..]) => {
                    case.title = String::from_utf8_lossy(words).into_owned();
                    opened = true;
                }
                (true, [b'I', b' ', text @ ..]) => case.input.push(Line::raw(text)),
                (true, [b'U', b' ', text @ ..]) => case.input.push(Line::raw(text).unended()),
                (true, [b'O', b' ', text @ ..]) => case.output.push(text.to_vec()),
                _ => return Err(malformed("a line of no known sort")),
            }
        }
    }

    /// Runs the bench on `request` and on the lines that `answering` gives, and keeps what was said.
    pub fn record(
        title: String,
        request: Option<Line>,
        answering: impl FnMut(&Transfer<'_>) -> Option<Line>,
    ) -> (Self, Report) {
        let case = Case { title, ..Case::default() };
        let mut recorder = Recorder { case, request, answering };
        let report = bench::run(&mut recorder);
        (recorder.case, report)
    }

    /// What the Rust prints for the case's input.
    #[must_use]
    pub fn answered(&self) -> Vec<Vec<u8>> {
        let mut lines = self.input.iter().cloned();
        let request = lines.next();
        Case::record(String::new(), request, |_| lines.next()).0.output
    }
}

fn write_line(out: &mut impl Write, mark: &[u8], text: &[u8]) -> io::Result<()> {
    out.write_all(mark)?;
    out.write_all(text)?;
    out.write_all(b"\n")
}

fn malformed(what: &str) -> io::Error {
    io::Error::new(io::ErrorKind::InvalidData, what)
}

/// A host that keeps every line in a case.
struct Recorder<A> {
    case: Case,
    request: Option<Line>,
    answering: A,
}

impl<A: FnMut(&Transfer<'_>) -> Option<Line>> Host for Recorder<A> {
    fn request(&mut self) -> Option<Line> {
        self.case.input.extend(self.request.clone());
        self.request.take()
    }

    fn outcome(&mut self, transfer: &Transfer<'_>) -> Option<Line> {
        let line = (self.answering)(transfer);
        self.case.input.extend(line.clone());
        line
    }

    fn printed(&mut self, line: &[u8]) {
        self.case.output.push(hex(line));
    }
}

/// What a replay found.
#[derive(Debug, Default)]
pub struct Replayed {
    pub cases: u64,
    pub differ: u64,
    /// The first case that differs, and what the Rust prints for it.
    pub first: Option<(Case, Vec<Vec<u8>>)>,
}

/// Runs every case of a list on the Rust.
pub fn replay(list: &mut impl BufRead) -> io::Result<Replayed> {
    let mut replayed = Replayed::default();
    while let Some(case) = Case::read(list)? {
        replayed.cases += 1;
        let answered = case.answered();
        if answered != case.output {
            replayed.differ += 1;
            replayed.first.get_or_insert((case, answered));
        }
    }
    Ok(replayed)
}
