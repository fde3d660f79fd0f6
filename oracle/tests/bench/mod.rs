//! Runs of the bench on the Rust, for the tests.

use oracle::line::{Line, hex};
use oracle::list::Case;

/// What the Rust prints for these input lines, each with its line feed.
pub fn bench(lines: &[&str]) -> Vec<String> {
    let input = lines.iter().map(|text| Line::raw(*text)).collect();
    let printed = Case { input, ..Case::default() }.answered();
    printed.into_iter().map(|text| String::from_utf8(text).expect("digits are text")).collect()
}

/// The line that says `bytes`.
pub fn line(bytes: &[u8]) -> String {
    String::from_utf8(hex(bytes)).expect("digits are text")
}

/// The outcome line of a reply to a read of `command`, with its right PEC.
#[allow(dead_code)]
pub fn sealed_reply(command: u8, data: &[u8]) -> String {
    let pec = smbus_pec::pec(&[&[0x16, command, 0x17], data].concat());
    line(&[&[0x00], data, &[pec]].concat())
}
