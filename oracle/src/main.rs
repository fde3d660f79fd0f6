//! `oracle`: the published Rust behind the bench program's lines, and lists of its answers.

use std::env;
use std::fs::File;
use std::io::{self, BufRead, BufReader, BufWriter, StdinLock, StdoutLock, Write};
use std::process::{self, ExitCode};

use oracle::bench::{self, Host};
use oracle::bus::Transfer;
use oracle::generate::{self, Sink};
use oracle::line::{Line, hex};
use oracle::{call, list, panics};

const USAGE: &str = "usage: oracle run
       oracle generate exhaustive [--depth N]
       oracle generate boundaries
       oracle generate random --seed S --cases N
       oracle generate sample
       oracle replay FILE
       oracle settings
       oracle panics";

fn main() -> ExitCode {
    let arguments: Vec<String> = env::args().skip(1).collect();
    let words: Vec<&str> = arguments.iter().map(String::as_str).collect();
    let done = match words.as_slice() {
        ["run"] => run(),
        ["generate", name, options @ ..] => generate(name, options),
        ["replay", file] => replay(file),
        ["settings"] => writeln!(io::stdout(), "{}", call::default_settings()).map(|()| ExitCode::SUCCESS),
        ["panics"] => panics::print(&mut io::stdout().lock()).map(|()| ExitCode::SUCCESS),
        _ => Ok(usage()),
    };
    done.unwrap_or_else(|error| {
        eprintln!("oracle: {error}");
        ExitCode::FAILURE
    })
}

fn usage() -> ExitCode {
    eprintln!("{USAGE}");
    ExitCode::from(2)
}

/// A host on standard input and output.
struct Terminal {
    input: StdinLock<'static>,
    output: StdoutLock<'static>,
    failed: io::Result<()>,
}

impl Terminal {
    /// The next line of the input, unless it is at its end.
    fn line(&mut self) -> Option<Line> {
        let mut text = Vec::new();
        if let Err(error) = self.input.read_until(b'\n', &mut text) {
            self.failed = Err(error);
            return None;
        }
        let ended = text.pop_if(|last| *last == b'\n').is_some();
        (ended || !text.is_empty()).then_some(Line { text, ended })
    }

    fn print(&mut self, line: &[u8]) -> io::Result<()> {
        self.output.write_all(&hex(line))?;
        self.output.write_all(b"\n")?;
        self.output.flush()
    }
}

impl Host for Terminal {
    fn request(&mut self) -> Option<Line> {
        self.line()
    }

    fn outcome(&mut self, _transfer: &Transfer<'_>) -> Option<Line> {
        self.line()
    }

    fn printed(&mut self, line: &[u8]) {
        if self.failed.is_ok() {
            self.failed = self.print(line);
        }
    }
}

fn run() -> io::Result<ExitCode> {
    let mut terminal = Terminal { input: io::stdin().lock(), output: io::stdout().lock(), failed: Ok(()) };
    bench::run(&mut terminal);
    terminal.failed.map(|()| ExitCode::SUCCESS)
}

/// Writes a generator's list to standard output, and its number of cases to standard error.
fn generate(name: &str, options: &[&str]) -> io::Result<ExitCode> {
    let (mut depth, mut seed, mut cases) = (generate::DEPTH, 1, 1000);
    for option in options.chunks(2) {
        match option {
            ["--depth", number] => depth = whole(number)? as usize,
            ["--seed", number] => seed = whole(number)?,
            ["--cases", number] => cases = whole(number)?,
            _ => return Ok(usage()),
        }
    }
    let mut out = BufWriter::with_capacity(1 << 16, io::stdout().lock());
    let mut written = 0u64;
    let sink: Sink<'_> = &mut |case, _| {
        case.write(&mut out).unwrap_or_else(|error| stop(&error));
        written += 1;
    };
    match name {
        "exhaustive" => generate::exhaustive(depth, sink),
        "boundaries" => generate::boundaries(sink),
        "random" => generate::random(seed, cases, sink),
        "sample" => generate::sample(sink),
        _ => return Ok(usage()),
    }
    out.flush()?;
    eprintln!("{written} cases");
    Ok(ExitCode::SUCCESS)
}

/// Ends the program where nobody takes its list.
fn stop(error: &io::Error) -> ! {
    eprintln!("oracle: {error}");
    process::exit(1)
}

fn whole(text: &str) -> io::Result<u64> {
    text.parse().map_err(|_| io::Error::new(io::ErrorKind::InvalidInput, format!("{text} is not a number")))
}

/// Runs a list on the Rust and prints how many cases it had, how many differ, and the first that does.
fn replay(file: &str) -> io::Result<ExitCode> {
    let replayed = list::replay(&mut BufReader::with_capacity(1 << 16, File::open(file)?))?;
    let mut out = io::stdout().lock();
    writeln!(out, "{} cases, {} differ", replayed.cases, replayed.differ)?;
    let Some((case, answered)) = replayed.first else {
        return Ok(ExitCode::SUCCESS);
    };
    writeln!(out, "The first that differs:")?;
    case.write(&mut out)?;
    writeln!(out, "The Rust prints:")?;
    for text in answered {
        writeln!(out, "O {}", String::from_utf8_lossy(&text))?;
    }
    Ok(ExitCode::FAILURE)
}
