//! Fault scripts through the safe crate.

use bellmantle::{parse_script, parse_script_into, Fault, Flaw, Refusal, Why};

#[test]
fn the_sample_of_the_rules() {
    let script = parse_script(b"20 heal-all\n5 crash 1 # east\n").unwrap();
    assert_eq!(script, [(5, Fault::Crash(1)), (20, Fault::HealAll)]);
    assert_eq!(script[0].1.to_string(), "crash 1");
}

#[test]
fn every_fault_and_equal_ticks_in_file_order() {
    let script = parse_script(b"7 heal 4\n7 restart 1\n7 reboot 2\n7 partition 3\n").unwrap();
    let faults = [
        Fault::Heal(4),
        Fault::Restart(1),
        Fault::Reboot(2),
        Fault::Partition(3),
    ];
    assert_eq!(script, faults.map(|fault| (7, fault)));
}

#[test]
fn one_thousand_five_hundred_is_a_bad_tick() {
    let error = parse_script(b"# night\n1,500 crash 1\n").unwrap_err();
    assert_eq!((error.refusal, error.line), (Refusal::BadTick, 2));
    assert_eq!(
        error.to_string(),
        "line 2: the tick is no number (refusal 4): a stray byte at byte 1 of the word"
    );
}

#[test]
fn where_a_number_went_bad() {
    let cases: [(&str, Why, u32); 8] = [
        ("1,500", Why::StrayByte, 1),
        ("-0", Why::StrayByte, 0),
        ("+x", Why::StrayByte, 1),
        ("+", Why::NoDigit, 1),
        ("18446744073709551616", Why::TooLarge, 19),
        ("18446744073709551616x", Why::TooLarge, 19),
        ("18446744073709551615x", Why::StrayByte, 20),
        ("+0018446744073709551616", Why::TooLarge, 22),
    ];
    for (word, why, byte) in cases {
        let flaw = Some(Flaw { why, byte });
        let tick = parse_script(format!("\n{word} crash 1").as_bytes()).unwrap_err();
        assert_eq!((tick.refusal, tick.line, tick.flaw), (Refusal::BadTick, 2, flaw));
        let id = parse_script(format!("5 crash {word}").as_bytes()).unwrap_err();
        assert_eq!((id.refusal, id.line, id.flaw), (Refusal::BadId, 1, flaw));
    }
    let digits = format!("{}x heal-all", "0".repeat(65_526));
    let last = Some(Flaw {
        why: Why::StrayByte,
        byte: 65_526,
    });
    assert_eq!(parse_script(digits.as_bytes()).unwrap_err().flaw, last);
}

#[test]
fn every_refusal() {
    let long = vec![b' '; 65_537];
    let cases: [(&[u8], Refusal, u32); 7] = [
        (&long, Refusal::TooLong, 0),
        (b"\n\x80", Refusal::BadByte, 2),
        (b"5", Refusal::OneWord, 1),
        (b"-0 crash 1", Refusal::BadTick, 1),
        (b"5 Crash 1", Refusal::UnknownFault, 1),
        (b"5 crash", Refusal::MissingId, 1),
        (b"5 crash x", Refusal::BadId, 1),
    ];
    for (text, refusal, line) in cases {
        let error = parse_script(text).unwrap_err();
        assert_eq!((error.refusal, error.line), (refusal, line));
        let is_about_a_number = matches!(refusal, Refusal::BadTick | Refusal::BadId);
        assert_eq!(error.flaw.is_some(), is_about_a_number);
    }
}

#[test]
fn comments_in_utf_8() {
    let script = "5 crash 1 # Süd-Ost 羊 🐑\n6 heal-all#é".as_bytes();
    let script = parse_script(script).unwrap();
    assert_eq!(script, [(5, Fault::Crash(1)), (6, Fault::HealAll)]);
    let strays: [(&[u8], u32); 6] = [
        ("5 cräsh 1".as_bytes(), 1),
        (b"#\n#\xc0\x80", 2),
        (b"#\xed\xa0\x80", 1),
        (b"#\xf4\x90\x80\x80", 1),
        (b"\n#\xe2\x82\n\xac", 2),
        (b"#\xe2\x82", 1),
    ];
    for (text, line) in strays {
        let error = parse_script(text).unwrap_err();
        assert_eq!((error.refusal, error.line), (Refusal::BadByte, line));
    }
}

#[test]
fn a_refusal_changes_no_word() {
    let mut words = [9; 5];
    assert_eq!(parse_script_into(b"5 crash 1", &mut words), Ok(1));
    assert_eq!(words, [5, 0, 1, 9, 9]);
    let error = parse_script_into(b"5 crash 1\n6 crash 2", &mut words).unwrap_err();
    assert_eq!((error.refusal, error.line), (Refusal::NoRoom, 2));
    assert_eq!(words, [5, 0, 1, 9, 9]);
}

#[test]
fn as_many_events_as_a_text_can_hold() {
    let text = b"0 heal 0\n".repeat(7_281);
    assert_eq!(parse_script(&text).unwrap().len(), 7_281);
}
