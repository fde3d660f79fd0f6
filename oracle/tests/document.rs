//! Statements of document 01, each shown by running the Rust, that retired kinds are refused, how waits grow, and which of two budgets a call
//! goes by.

mod bench;

use bench::{bench, line, sealed_reply};
use oracle::answer::Answer;
use oracle::bus::{Outcome, Partner, Transfer};
use oracle::call;
use oracle::request::{Kind, Request, Retries};

/// The request line of kind, flags, retries and arguments.
fn request(kind: u8, flags: u8, retries: u8, arguments: &[u8]) -> String {
    line(&[&[kind, flags, retries, 0], arguments].concat())
}

/// The answer's number on the last line; none where the outcomes ran out.
fn number(printed: &[String]) -> Option<u8> {
    let last = printed.last().expect("something is always printed");
    last.strip_prefix("FF").map(|rest| u8::from_str_radix(&rest[..2], 16).expect("two digits"))
}

/// The answer of a call that gets no outcome.
fn started(kind: u8, flags: u8, arguments: &[u8]) -> Option<u8> {
    number(&bench(&[&request(kind, flags, 0, arguments)]))
}

#[test]
fn the_worked_case() {
    let printed = bench(&["010001000040AABB", "0105", "00"]);
    assert_eq!(printed, ["0044040040AABB", "0044040040AABB", "FF000000010000000A000000"]);
}

#[test]
fn the_window_figures() {
    let figures: [(u16, u16, Option<u8>); 8] = [
        (0x4000, 1, None),
        (0x3FFF, 1, Some(5)),
        (0x5FFF, 1, None),
        (0x5FFF, 2, Some(5)),
        (0x4000, 8192, None),
        (0x4001, 8192, Some(5)),
        (0xFFFF, 0, Some(0)),
        (0xFFFF, 2, Some(5)),
    ];
    for (address, length, expected) in figures {
        let payload = vec![0; usize::from(length)];
        let write = [&address.to_le_bytes()[..], &payload].concat();
        let read = [address.to_le_bytes(), length.to_le_bytes()].concat();
        for flags in 0..4 {
            assert_eq!(started(0x01, flags, &write), expected);
            assert_eq!(started(0x02, flags, &read), expected);
        }
    }
}

/// A bus on which nothing is ever heard of again.
struct Silence;

impl Partner for Silence {
    fn outcome(&mut self, _transfer: Transfer<'_>) -> Option<Outcome> {
        None
    }
}

#[test]
fn the_window_figure_that_no_line_can_ask_for() {
    for kind in [Kind::WriteDataflash, Kind::ReadDataflash] {
        let long = Request {
            kind,
            pec_write: false,
            pec_read: false,
            growing_waits: false,
            retries: Retries::Both(0),
            number: 0x4000,
            length: 8193,
            payload: vec![0; 8193],
        };
        assert_eq!(call::run(&long, &mut Silence).answer, Some(Answer::plain(5)));
        assert_eq!(Request::from_bytes(&long.to_bytes()), None);
    }
}

#[test]
fn each_length_limit_is_the_largest_that_passes() {
    let writes: [(u8, usize, usize); 5] =
        [(0x03, 1, 32), (0x07, 1, 33), (0x10, 4, 32), (0x12, 0, 32), (0x15, 0, 38)];
    for (kind, front, limit) in writes {
        assert_eq!(started(kind, 1, &vec![0; front + limit]), None);
        assert_eq!(started(kind, 1, &vec![0; front + limit + 1]), Some(4));
    }
    for (kind, front, limit) in [(0x04, 1, 32), (0x05, 4, 32), (0x0F, 0, 32), (0x11, 0, 33)] {
        let read = |length: u8| [&vec![0; front][..], &[length, 0]].concat();
        assert_eq!(started(kind, 2, &read(limit)), None);
        assert_eq!(started(kind, 2, &read(limit + 1)), Some(4));
    }
}

#[test]
fn a_plain_write_without_pec_and_a_buffer_read_have_no_limit() {
    assert_eq!(started(0x15, 2, &[0; 8192]), None);
    assert_eq!(started(0x06, 3, &[0x0D, 0x00, 0x20]), None);
}

#[test]
fn a_command_with_input_is_7_and_4_comes_first() {
    let command = |output: u8, input: usize| [&[0, 0x35, 0x44, 0, output, 0][..], &vec![0; input]].concat();
    assert_eq!(started(0x05, 0, &command(0, 1)), Some(7));
    assert_eq!(started(0x05, 0, &command(32, 32)), Some(7));
    assert_eq!(started(0x05, 0, &command(0, 33)), Some(4));
    assert_eq!(started(0x05, 0, &command(33, 1)), Some(4));
}

#[test]
fn a_write_of_33_bytes_makes_frames_of_36_and_5_bytes() {
    let payload: Vec<u8> = (0..33).collect();
    let printed = bench(&[&request(0x01, 0, 0, &[&[0x00, 0x40], &payload[..]].concat()), "00", "00"]);
    let first = line(&[&[0x00, 0x44, 0x22, 0x00, 0x40], &payload[..32]].concat());
    assert_eq!(printed, [first, "0044032040".to_owned() + "20", "FF0000000000000000000000".into()]);
}

#[test]
fn a_data_flash_write_renews_its_budget_at_each_block() {
    let long = request(0x01, 0, 1, &[&[0x00, 0x40][..], &[0; 65]].concat());
    let outcomes = ["02", "00", "0111", "00", "02", "00"];
    let printed = bench(&[&[long.as_str()], &outcomes[..]].concat());
    assert_eq!(printed.last().map(String::as_str), Some("FF000000030000001E000000"));
}

#[test]
fn a_failed_data_flash_write_tells_the_bytes_before_the_failing_block() {
    let long = request(0x01, 0, 0, &[&[0x00, 0x40][..], &[0; 65]].concat());
    assert_eq!(bench(&[&long, "0111"])[1], "FF0111000000000000000000");
    assert_eq!(bench(&[&long, "00", "0111"])[2], "FF0620000000000000000000");
    assert_eq!(bench(&[&long, "00", "00", "02"])[3], "FF0640000000000000000000");
}

#[test]
fn a_data_flash_read_has_one_budget_and_sends_a_failed_blocks_own_address_again() {
    let long = request(0x02, 0, 1, &[0x00, 0x40, 33, 0]);
    let whole = format!("00{}", "77".repeat(35));
    let printed = bench(&[&long, "00", &whole, "02", "00", "0111"]);
    let transfers = ["0044020040", "01442300", "01440400", "0044022040", "01440400"];
    assert_eq!(printed[..5], transfers);
    assert_eq!(printed[5], format!("FF011100010000000A000000{}A5", "77".repeat(32)));
}

#[test]
fn after_a_bad_pec_the_blocks_own_address_goes_out_again() {
    let long = request(0x02, 2, 1, &[0x00, 0x40, 1, 0]);
    let good = sealed_reply(0x44, &[0x77; 35]);
    let bad = format!("00{}", "77".repeat(36));
    let printed = bench(&[&long, "00", &bad, "00", &good]);
    let transfers = ["0044020040AB", "01442400", "0044020040AB", "01442400", "FF000000010000000A00000077"];
    assert_eq!(printed, transfers);
}

#[test]
fn a_mac_read_restarts_at_its_command_frame() {
    let printed = bench(&["0F0001000100", "00", "02", "00", "0001020377"]);
    let expected = ["0044027B00", "01440400", "0044027B00", "01440400", "FF000000010000000A00000077"];
    assert_eq!(printed, expected);
}

#[test]
fn override_figures_are_signed_and_low_byte_first() {
    let bytes = "FFFF0080341200000100";
    assert_eq!(bench(&[&format!("14000000{bytes}"), "00"])[0], format!("00440CB000{bytes}"));
    let printed = bench(&["13000000", "00", &format!("000CB000{bytes}")]);
    assert_eq!(printed, ["004402B000", "01440D00", &format!("FF0000000000000000000000{bytes}")]);
}

#[test]
fn a_key_of_another_length_is_8() {
    assert_eq!(bench(&[&format!("09000000{}", "00".repeat(27))]), ["FF0800000000000000000000"]);
    assert_eq!(bench(&[&format!("0B000000{}", "00".repeat(17))]), ["FF0800000000000000000000"]);
}

#[test]
fn a_refused_reading_call_prints_its_buffer_all_a5() {
    assert_eq!(bench(&["02000000FF3F0200"]), ["FF0500000000000000000000A5A5"]);
    assert_eq!(bench(&["040000000D2100"]), [format!("FF0400000000000000000000{}", "A5".repeat(33))]);
    assert_eq!(bench(&["05000000003544000200AA"]), ["FF0700000000000000000000A5A5"]);
}

#[test]
fn bad_lines_are_11() {
    let refused = ["FF0B00000000000000000000"];
    assert_eq!(bench(&[]), refused);
    for bad in
        ["", "0", "16000000", "15040000", "150000", "1500000g", "150000AA ", "15000000\r", "020000000040"]
    {
        assert_eq!(bench(&[bad]), refused, "{bad:?}");
    }
    for bad in ["", "0", "03", "01", "010203", "0200", "02 ", "00\r", "0a"] {
        assert_eq!(bench(&["15000000", bad]), ["00", "FF0B00000000000000000000"], "{bad:?}");
    }
}

#[test]
fn a_retired_kind_is_15_whatever_follows() {
    for kind in ["0C", "0D"] {
        for rest in ["", "0", "ZZ", "FF0000", "000000120200", " ", "\r", "c"] {
            assert_eq!(
                bench(&[&format!("{kind}{rest}"), "00"]),
                ["FF0F00000000000000000000"],
                "{kind}{rest:?}"
            );
        }
    }
    for other in ["0c000000120200", "0", "0E", " 0C", "1C000000"] {
        assert_eq!(bench(&[other]), ["FF0B00000000000000000000"], "{other:?}");
    }
    assert_eq!(bench(&["15000000", "0C"]), ["00", "FF0B00000000000000000000"]);
}

#[test]
fn a_wrong_reply_is_9_and_one_over_8192_bytes_is_11() {
    let waited = ["0200010000400100", "0111", "00"];
    let transfers = ["0044020040", "0044020040", "01440400"];
    let reply = |length: usize| format!("00{}", "00".repeat(length));
    for (length, last) in [
        (3, "FF090000010000000A000000A5"),
        (8192, "FF090000010000000A000000A5"),
        (8193, "FF0B0000010000000A000000A5"),
    ] {
        let printed = bench(&[&waited[..], &[&reply(length)]].concat());
        assert_eq!(printed, [&transfers[..], &[last]].concat());
    }
}

/// The waits and their milliseconds on the last line of a run of `request`, whose outcomes are these.
fn waited(request: &str, outcomes: &[&str]) -> (u32, u32) {
    let printed = bench(&[&[request], outcomes].concat());
    let last = printed.last().expect("something is always printed");
    let digits = if last.starts_with("FF") { &last[8..24] } else { &last[2..18] };
    let number = |digits| u32::from_str_radix(digits, 16).expect("eight digits").swap_bytes();
    (number(&digits[..8]), number(&digits[8..]))
}

#[test]
fn the_rusts_waits_are_10_ms_each() {
    for failures in [0, 1, 3, 4, 6, 65535] {
        let outcomes = [&vec!["02"; failures][..], &["00"]].concat();
        let waits = failures as u32;
        assert_eq!(waited("1500FFFFAA", &outcomes), (waits, 10 * waits));
        assert_eq!(waited("1508FFFFAA", &outcomes).0, waits);
    }
}

#[test]
fn waits_that_grow_are_10_20_40_and_then_80() {
    for (failures, ms) in [0, 10, 30, 70, 150, 230, 310].into_iter().enumerate() {
        let waits = failures as u32;
        let heard_then = [&vec!["0111"; failures][..], &["00"]].concat();
        assert_eq!(waited("15080600AA", &heard_then), (waits, ms));
        assert_eq!(waited("15080600AA", &vec!["02"; failures]), (waits, ms));
        let last_has_none = format!("1508{failures:02X}00AA");
        assert_eq!(waited(&last_has_none, &vec!["02"; failures + 1]), (waits, ms));
    }
    assert_eq!(waited("1508FFFFAA", &vec!["02"; 65536]), (65535, 10 + 20 + 40 + 80 * 65532));
}

#[test]
fn in_a_writing_call_each_frame_begins_at_10() {
    let long = request(0x01, 8, 4, &[&[0x00, 0x40][..], &[0; 65]].concat());
    let outcomes = ["02", "0111", "02", "02", "00", "02", "0111", "00", "02"];
    assert_eq!(waited(&long, &outcomes), (7, 150 + 30 + 10));
    assert_eq!(waited(&long, &outcomes[..6]), (5, 150 + 10));
    let key = request(0x0E, 8, 2, &[0x14, 0x04, 0x72, 0x36]);
    assert_eq!(waited(&key, &["02", "02", "00", "02", "02", "02"]), (4, 30 + 30));
}

#[test]
fn a_reading_call_has_one_budget_whose_waits_grow_through_it() {
    let long = request(0x02, 8, 4, &[0x00, 0x40, 33, 0]);
    let whole = format!("00{}", "77".repeat(35));
    assert_eq!(waited(&long, &["02", "00", "02", "00", &whole, "0111", "00", "02"]), (4, 150));
    let mac = "0F0A04000100";
    let bad = format!("00{}", "77".repeat(36));
    assert_eq!(waited(mac, &["00", &bad, "02", "00", "0111", "00"]), (3, 70));
}

#[test]
fn other_flags_are_11() {
    for flags in 0..=255 {
        let expected = if flags < 0x10 { None } else { Some(11) };
        assert_eq!(started(0x15, flags, &[0xAA, 0xBB, 0xCC]), expected, "{flags:02X}");
    }
}

/// Each call with its arguments and the length of its buffer; a command is a write with no output and a read with some.
const WRITES: [(u8, &[u8]); 11] = [
    (0x01, &[0x00, 0x40, 0xAA]),
    (0x03, &[0x0D, 0xAA]),
    (0x05, &[0x00, 0x35, 0x44, 0x00, 0x00, 0x00]),
    (0x07, &[0x0D, 0xAA]),
    (0x09, &[0xAA; 28]),
    (0x0B, &[0xAA; 16]),
    (0x0E, &[0x14, 0x04, 0x72, 0x36]),
    (0x10, &[0x14, 0x04, 0x72, 0x36, 0xAA]),
    (0x12, &[0xAA]),
    (0x14, &[0xAA; 10]),
    (0x15, &[0xAA]),
];
const READS: [(u8, &[u8], usize); 9] = [
    (0x02, &[0x00, 0x40, 0x01, 0x00], 1),
    (0x04, &[0x0D, 0x01, 0x00], 1),
    (0x05, &[0x00, 0x35, 0x44, 0x00, 0x01, 0x00], 1),
    (0x06, &[0x0D, 0x01, 0x00], 1),
    (0x08, &[], 28),
    (0x0A, &[], 16),
    (0x0F, &[0x01, 0x00], 1),
    (0x11, &[0x01, 0x00], 1),
    (0x13, &[], 10),
];

/// What is printed last where a call with two budgets of less than 256, the write budget first, has no answer to any of its transfers.
fn silence(kind: u8, flags: u8, write: u8, read: u8, arguments: &[u8]) -> String {
    let request = line(&[&[kind, flags, write, 0, read, 0], arguments].concat());
    bench(&[&[request.as_str()], &["02"; 9][..]].concat()).pop().expect("something is always printed")
}

#[test]
fn a_call_goes_by_the_budget_of_its_side_alone() {
    let at_once = "FF0200000000000000000000";
    let after_two = "FF0200000200000014000000";
    for (kind, arguments) in WRITES {
        for other in [0, 1, 2, 7] {
            assert_eq!(silence(kind, 4, 0, other, arguments), at_once, "{kind:02X}");
            assert_eq!(silence(kind, 7, 2, other, arguments), after_two, "{kind:02X}");
        }
    }
    for (kind, arguments, length) in READS {
        let buffer = "A5".repeat(length);
        for other in [0, 1, 2, 7] {
            assert_eq!(silence(kind, 4, other, 0, arguments), at_once.to_owned() + &buffer, "{kind:02X}");
            assert_eq!(silence(kind, 7, other, 2, arguments), after_two.to_owned() + &buffer, "{kind:02X}");
        }
    }
    let kinds = WRITES.map(|row| row.0).into_iter().chain(READS.map(|row| row.0));
    let missing: Vec<Kind> =
        Kind::ALL.into_iter().filter(|kind| !kinds.clone().any(|number| number == *kind as u8)).collect();
    assert_eq!(missing, []);
}

#[test]
fn the_command_and_the_address_frame_of_a_read_go_by_the_read_budget() {
    let address = ["0204020000000040", "0100"].concat();
    assert_eq!(bench(&[&address, "02"]), ["0044020040", "FF0200000000000000000000A5"]);
    let command = "0F04020000000100";
    assert_eq!(bench(&[command, "02"]), ["0044027B00", "FF0200000000000000000000A5"]);
    let both = bench(&["0F04000001000100", "02", "00", "02"]);
    assert_eq!(both, ["0044027B00", "0044027B00", "01440400", "FF020000010000000A000000A5"]);
}

#[test]
fn each_frame_of_a_write_has_the_write_budget() {
    let long = line(&[&[0x01, 0x0C, 2, 0, 0, 0, 0x00, 0x40][..], &[0; 33]].concat());
    assert_eq!(waited(&long, &["02", "02", "00", "02", "02", "00"]), (4, 30 + 30));
    assert_eq!(bench(&[&long, "00", "02", "02", "02"])[4], "FF062000020000001E000000");
}

#[test]
fn budgets_are_two_bytes_low_byte_first_and_the_write_budget_comes_first() {
    let failures = |count: usize| vec!["02"; count];
    for (write, read) in [(0x0102_u16, 0x0304_u16), (0x0001, 0xFF00), (0xFF00, 0x0001)] {
        let header = |kind| [&[kind, 0x04], &write.to_le_bytes()[..], &read.to_le_bytes()].concat();
        let plain = line(&[header(0x15), vec![0xAA]].concat());
        assert_eq!(waited(&plain, &failures(70_000)).0, u32::from(write));
        let register = line(&[header(0x04), vec![0x0D, 0x01, 0x00]].concat());
        assert_eq!(waited(&register, &failures(70_000)).0, u32::from(read));
    }
}

#[test]
fn one_number_fills_both_budgets() {
    for (kind, arguments) in WRITES.into_iter().chain(READS.map(|(kind, arguments, _)| (kind, arguments))) {
        for retries in 0..4 {
            let one = request(kind, 3, retries, arguments);
            let last = bench(&[&[one.as_str()], &["0111"; 9][..]].concat()).pop();
            let two = line(&[&[kind, 7, retries, 0, retries, 0], arguments].concat());
            assert_eq!(bench(&[&[two.as_str()], &["0111"; 9][..]].concat()).pop(), last, "{kind:02X}");
        }
    }
}

#[test]
fn a_line_too_short_for_both_budgets_is_11() {
    let refused = ["FF0B00000000000000000000"];
    for kind in Kind::ALL {
        for flags in [0x04, 0x07, 0x0C, 0x0F] {
            for length in 0..4 {
                let short = [&[kind as u8, flags], &[0; 4][..length]].concat();
                assert_eq!(bench(&[&line(&short)]), refused, "{kind:?} with {length} bytes behind its flags");
            }
        }
    }
    assert_eq!(bench(&["150400000000"]), ["00", "FE0000000000000000"]);
    for missing in ["020400000000", "02040000000000400", "0204000000000040", "020400000000004004"] {
        assert_eq!(bench(&[missing]), refused);
    }
    assert_eq!(bench(&["0C0400"]), ["FF0F00000000000000000000"]);
}

#[test]
fn the_longest_line_has_16408_digits() {
    for (input, answer) in [(8192, "FF0400000000000000000000"), (8193, "FF0B00000000000000000000")] {
        let longest = [&[0x05, 0x04, 0, 0, 0, 0, 0x00, 0x35, 0x44, 0x00, 0, 0][..], &vec![0; input]].concat();
        assert_eq!(line(&longest).len(), 16_408 + 2 * (input - 8192));
        assert_eq!(bench(&[&line(&longest)]), [answer]);
    }
}

#[test]
fn with_no_outcomes_left_the_waits_and_the_buffer_are_printed() {
    assert_eq!(bench(&["0200010000400100", "0111"]), ["0044020040", "0044020040", "FE010000000A000000A5"]);
    assert_eq!(bench(&["15000100AA"]), ["00AA", "FE0000000000000000"]);
}
