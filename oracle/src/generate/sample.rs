//! A few thousand cases out of the other generators, small enough for a repository.

use std::collections::HashSet;

use super::{DEPTH, Sink, boundaries, exhaustive, random};
use crate::bench::Report;
use crate::list::Case;

/// Longer cases are left out, but for a few that no short one can stand for.
const LARGEST_CASE: usize = 600;

/// The seed and the number of cases that the random ones are taken from.
const SEED: u64 = 1;
const RANDOM_CASES: u64 = 20_000;

/// The first case of each combination that the repository's list should have.
pub fn sample(sink: Sink<'_>) {
    let mut kept = Kept { seen: HashSet::new(), sink };
    exhaustive(DEPTH, &mut |case, report| {
        let setting = budgets(&case).unwrap_or_else(|| setting(&case));
        let key = format!("exhaustive, {setting}, {} ms of waits", report.waited_ms);
        kept.offer(key, case, report);
    });
    boundaries(&mut |case, report| kept.offer(boundary(&case), case, report));
    random(SEED, RANDOM_CASES, &mut |case, report| {
        let key = format!("random, {}", setting(&case));
        kept.offer(key, case, report);
    });
}

/// The combinations that are already in the list.
struct Kept<'a> {
    seen: HashSet<String>,
    sink: Sink<'a>,
}

impl Kept<'_> {
    /// Keeps `case` if it is the first with its key and answer, and is small plain text or must be there.
    fn offer(&mut self, key: String, case: Case, report: Report) {
        let must_be_there = is_of_three_blocks(&case) || is_large(&case);
        let key = if must_be_there { case.title.clone() } else { key };
        let number = report.answer.map(|answer| answer.number);
        let fits = must_be_there || length(&case) <= LARGEST_CASE && is_text(&case);
        if fits && self.seen.insert(format!("{key}, {number:?}")) {
            (self.sink)(case, report);
        }
    }
}

/// What a boundary's case is kept for: its section, or only the section's first word.
fn boundary(case: &Case) -> String {
    let (section, rest) = case.title.split_once(": ").unwrap_or_default();
    let word = section.split([' ', ',']).next().unwrap_or_default();
    match word {
        "request" | "outcome" => format!("{section}, {}", call(case)),
        "growing" if has_flags(case, &[8, 11]) => format!("{section}, {}", behind_sections(case, 2)),
        _ if has_flags(case, &[0, 3]) && rest.ends_with("all good") => {
            format!("{section}, {}", setting(case))
        }
        _ => format!("{word}, {}", setting(case)),
    }
}

/// The call's name in a title, without and with the flags behind it; where waits grow or there are two budgets, the other flags are left out.
fn call(case: &Case) -> String {
    behind_sections(case, 1)
}

fn setting(case: &Case) -> String {
    if has_flags(case, &[8, 9, 10, 11]) {
        return format!("{}, growing waits", call(case));
    }
    if has_flags(case, &TWO_BUDGETS) {
        return format!("{}, two budgets", call(case));
    }
    behind_sections(case, 2)
}

/// The flags that have two budgets behind them.
const TWO_BUDGETS: [u8; 8] = [4, 5, 6, 7, 12, 13, 14, 15];

/// The call's name, its two budgets and its side in a title, where it has two.
fn budgets(case: &Case) -> Option<String> {
    let words = behind_sections(case, 4);
    let (name, rest) = words.split_once(", flags ")?;
    let (_, retries) = rest.split_once(", ")?;
    has_flags(case, &TWO_BUDGETS).then(|| format!("{name}, {retries}"))
}

/// Whether a title's flags are one of these.
fn has_flags(case: &Case, flags: &[u8]) -> bool {
    let setting = behind_sections(case, 2);
    flags.iter().any(|flags| setting.ends_with(&format!(", flags {flags}")))
}

/// So many words of a title, from the call's name on.
fn behind_sections(case: &Case, parts: usize) -> String {
    let words =
        case.title.split(": ").find(|part| part.contains(", flags ")).or(case.title.split(": ").last());
    words.unwrap_or_default().split(", ").take(parts).collect::<Vec<_>>().join(", ")
}

/// Data flash over three blocks with one retry: every list of outcomes is kept.
fn is_of_three_blocks(case: &Case) -> bool {
    let starts = [
        "exhaustive: write_dataflash, flags 3, retries 1: ",
        "exhaustive: read_dataflash, flags 0, retries 1: ",
        "exhaustive: read_dataflash, flags 3, retries 1: ",
    ];
    let request = case.input.first().map_or(&[][..], |line| &line.text);
    let has_65_bytes =
        request.starts_with(b"02") && request.ends_with(b"4100") || request.len() == 2 * (6 + 65);
    has_65_bytes && starts.iter().any(|start| case.title.starts_with(start))
}

/// Runs of the largest length, a count of two bytes, waits that grow from block to block, a reply of one byte too many for a line, the
/// longest line and one that is longer, and retired lines that are longer than any line.
fn is_large(case: &Case) -> bool {
    let titles = [
        "length 8192: write_dataflash, flags 3, retries 1: all good",
        "length 8192: read_dataflash, flags 3, retries 1: all good",
        "length 8192: buffer_read, flags 3, retries 1: all good",
        "length 8193: write_dataflash, flags 3, retries 1: all good",
        "count 257: send_access_key, flags 3, retries 257: as many as allowed",
        "count 257: send_access_key, flags 3, retries 257: one too many",
        "count 257: plain_write, flags 7, retries 257 and 1, a write: one too many",
        "count 257: read_register, flags 7, retries 1 and 257, a read: one too many",
        "growing waits, 4 failures: write_dataflash, flags 8, retries 4: three times",
        "growing waits, 6 failures: write_dataflash, flags 11, retries 6: three times",
        "growing waits, 6 failures: read_dataflash, flags 11, retries 6: at each second transfer, with a bad PEC",
        "outcome, a reply of 8193: send_access_key, flags 0, retries 2: the last line",
        "request, two budgets, an input of 8192: dispatch_command",
        "request, two budgets, an input of 8193: dispatch_command",
        "request, retired, 20,000 digits: 0C",
        "request, retired, 20,000 digits, no line feed: 0D",
    ];
    titles.contains(&case.title.as_str())
}

/// The case's bytes in a list.
fn length(case: &Case) -> usize {
    let mut text = Vec::new();
    case.write(&mut text).expect("memory can be written");
    text.len()
}

/// Whether the input has no characters that an editor would trip over.
fn is_text(case: &Case) -> bool {
    case.input.iter().flat_map(|line| &line.text).all(|byte| matches!(byte, b'\t' | b'\r' | b' '..=b'~'))
}
