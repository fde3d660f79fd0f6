//! Facts of the Rust that are easy to miss, each shown by running it.

mod bench;

use bench::{bench, sealed_reply};

/// The frame with its PEC, as a printed line.
fn sealed_write(frame: &[u8]) -> String {
    let pec = smbus_pec::pec(&[&[0x16], frame].concat());
    bench::line(&[&[0x00], frame, &[pec]].concat())
}

#[test]
fn a_command_with_input_and_output_both_empty_is_one_write_by_pec_write_with_no_read() {
    let plain = ["0044023500", "FF0000000000000000000000"];
    let sealed = [sealed_write(&[0x44, 0x02, 0x35, 0x00]), "FF0000000000000000000000".into()];
    assert_eq!(bench(&["05000000003544000000", "00"]), plain);
    assert_eq!(bench(&["05020000003544000000", "00"]), plain);
    assert_eq!(bench(&["05010000003544000000", "00"]), sealed);
    assert_eq!(bench(&["05030000003544000000", "00"]), sealed);
}

#[test]
fn bits_31_to_24_of_a_command_address_are_ignored() {
    for top in ["00", "01", "80", "FF"] {
        let request = format!("05000000003544{top}0100");
        assert_eq!(
            bench(&[&request, "00", "0001020304"]),
            ["0044023500", "01440400", "FF000000000000000000000004"]
        );
    }
}

#[test]
fn every_frame_of_a_read_goes_by_pec_read() {
    let sealed_frame = sealed_write(&[0x44, 0x02, 0x37, 0x00]);
    assert_eq!(bench(&["0A020000", "00"])[..2], [sealed_frame, "01441400".into()]);
    let sealed_address = sealed_write(&[0x44, 0x02, 0x00, 0x40]);
    assert_eq!(bench(&["0202000000400100", "00"])[..2], [sealed_address, "01442400".into()]);
}

#[test]
fn pec_write_alone_puts_no_pec_on_a_mac_reads_frame() {
    assert_eq!(bench(&["0A010000", "00"])[..2], ["0044023700", "01441300"]);
    assert_eq!(bench(&["0201000000400100", "00"])[..2], ["0044020040", "01440400"]);
}

#[test]
fn a_command_reads_pec_is_worked_out_with_44_whatever_its_first_byte_is() {
    let request = "05020000003545000100";
    let transfers = [sealed_write(&[0x45, 0x02, 0x35, 0x00]), "01450500".into()];
    let right = bench(&[request, "00", &sealed_reply(0x44, &[1, 2, 3, 0x77])]);
    assert_eq!(right, [&transfers[..], &["FF000000000000000000000077".into()]].concat());
    let sent = bench(&[request, "00", &sealed_reply(0x45, &[1, 2, 3, 0x77])]);
    assert_eq!(sent, [&transfers[..], &["FF0300000000000000000000A5".into()]].concat());
}

#[test]
fn a_zero_length_register_or_buffer_read_is_still_a_transfer() {
    let done = "FF0000000000000000000000";
    for kind in ["04", "06"] {
        assert_eq!(bench(&[&format!("{kind}0000000D0000"), "00"]), ["010D0000", done]);
    }
    assert_eq!(bench(&["040200000D0000", &sealed_reply(0x0D, &[])]), ["010D0100", done]);
    assert_eq!(bench(&["060300000D0000", "00"]), ["010D0000", done]);
}

#[test]
fn a_zero_length_info_read_asks_0_and_with_pec_34_and_hands_over_nothing() {
    assert_eq!(bench(&["110000000000", "00"]), ["01700000", "FF0000000000000000000000"]);
    assert_eq!(
        bench(&["110200000000", &sealed_reply(0x70, &[0x5C; 33])]),
        ["01702200", "FF0000000000000000000000"]
    );
}

#[test]
fn a_zero_length_info_c_read_sends_its_frame_and_asks_3_and_with_pec_36() {
    assert_eq!(
        bench(&["0F0000000000", "00", "00010203"]),
        ["0044027B00", "01440300", "FF0000000000000000000000"]
    );
    let frame = sealed_write(&[0x44, 0x02, 0x7B, 0x00]);
    let reply = sealed_reply(0x44, &[0x5C; 35]);
    assert_eq!(
        bench(&["0F0200000000", "00", &reply]),
        [frame, "01442400".into(), "FF0000000000000000000000".into()]
    );
}

#[test]
fn empty_writes_send_their_head_alone() {
    let done = "FF0000000000000000000000";
    assert_eq!(bench(&["030000000D", "00"]), ["000D", done]);
    assert_eq!(bench(&["070000000D", "00"]), ["000D", done]);
    assert_eq!(bench(&["12000000", "00"]), ["007000", done]);
    assert_eq!(bench(&["15000000", "00"]), ["00", done]);
    assert_eq!(bench(&["15010000", "00"]), ["0062", done]);
}

#[test]
fn infos_size_byte_counts_as_data_and_is_handed_over_as_byte_0() {
    assert_eq!(bench(&["110000000300", "0002AABB"]), ["01700300", "FF000000000000000000000002AABB"]);
    let data: Vec<u8> = (0x20..0x41).collect();
    assert_eq!(
        bench(&["110200000300", &sealed_reply(0x70, &data)]),
        ["01702200", "FF0000000000000000000000202122"]
    );
}

#[test]
fn a_mac_replys_first_three_bytes_are_never_examined() {
    for front in [[0x00, 0x00, 0x00], [0xFF, 0xFF, 0xFF], [0x22, 0x00, 0x40], [0x12, 0x34, 0x56]] {
        let plain = bench::line(&[&[0x00], &front[..], &[0x77]].concat());
        let sealed = sealed_reply(0x44, &[&front[..], &[0x77; 32]].concat());
        assert_eq!(bench(&["0200000000400100", "00", &plain])[2], "FF000000000000000000000077");
        assert_eq!(bench(&["0202000000400100", "00", &sealed])[2], "FF000000000000000000000077");
        assert_eq!(bench(&["0F0000000100", "00", &plain])[2], "FF000000000000000000000077");
        assert_eq!(bench(&["0F0200000100", "00", &sealed])[2], "FF000000000000000000000077");
    }
}

#[test]
fn all_kinds_of_failure_share_a_budget_and_the_last_one_gives_the_answer_and_its_code() {
    let request = "040203000D0100";
    let bad_pec = "00AA00";
    assert_eq!(bench(&[request, "0111", "02", bad_pec, "0144"])[4], "FF014400030000001E000000A5");
    assert_eq!(bench(&[request, "0111", "0122", bad_pec, "02"])[4], "FF020000030000001E000000A5");
    assert_eq!(bench(&[request, "0111", "02", "02", bad_pec])[4], "FF030000030000001E000000A5");
    let flash = "0200030000400100";
    assert_eq!(bench(&[flash, "0111", "00", "02", "0122", "00", "0133"])[6], "FF013300030000001E000000A5");
}

#[test]
fn a_failure_after_an_access_keys_first_half_is_1_or_2_never_6() {
    let frames = ["0044021404", "0044027236"];
    let ends = |last: &str, answer: &str| {
        let expected = [&frames[..], &[answer]].concat();
        assert_eq!(bench(&["0E00000014047236", "00", last]), expected);
    };
    ends("0155", "FF0155000000000000000000");
    ends("02", "FF0200000000000000000000");
    let info_c = bench(&["100000001404723601", "00", "00", "0155"]);
    assert_eq!(info_c, [&frames[..], &["0044037B0001", "FF0155000000000000000000"]].concat());
}

#[test]
fn one_byte_at_5fff_with_pec_asks_36() {
    let reply = sealed_reply(0x44, &[0x77; 35]);
    let expected =
        [sealed_write(&[0x44, 0x02, 0xFF, 0x5F]), "01442400".into(), "FF000000000000000000000077".into()];
    assert_eq!(bench(&["02020000FF5F0100", "00", &reply]), expected);
}
