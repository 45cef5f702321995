//! Scripts about each refusal and each limit, with answers written from the rules (docs/RULES.md), and by no program.

use crate::expected::{self, Answer};
use crate::numbers::Flaw;
use oracle::script::{Event, FAULT_NAMES};

pub type Ruled = (Vec<u8>, Answer);

const LARGEST: u64 = u64::MAX;

/// A script with its events: tick, fault and id.
fn accepted(text: impl AsRef<[u8]>, events: &[(u64, &str, u64)]) -> Ruled {
    let number = |name: &str| {
        let place = FAULT_NAMES.iter().position(|&known| known == name);
        place.expect("a fault of the rules") as u64
    };
    let events = events.iter().map(|&(tick, name, id)| Event {
        tick,
        fault: number(name),
        id,
    });
    (text.as_ref().to_vec(), Answer::Accepted(events.collect()))
}

fn refused(text: impl AsRef<[u8]>, number: u32, line: u32) -> Ruled {
    (text.as_ref().to_vec(), expected::refused(number, line))
}

/// A script with a bad number: why, and at which byte of its word.
fn bad(text: impl AsRef<[u8]>, number: u32, line: u32, why: u32, byte: u32) -> Ruled {
    let flaw = Flaw { why, byte };
    let answer = Answer::Refused { number, line, flaw };
    (text.as_ref().to_vec(), answer)
}

pub fn cases() -> Vec<Ruled> {
    let mut cases = events();
    cases.extend(numbers());
    cases.extend(texts());
    cases.extend(faulty_lines());
    cases.extend(many_events());
    cases
}

fn events() -> Vec<Ruled> {
    let mut cases = vec![
        // The rules' sample, and every fault.
        accepted(
            "20 heal-all\n5 crash 1 # east\n",
            &[(5, "crash", 1), (20, "heal-all", 0)],
        ),
        accepted(
            "1 crash 0\n2 restart 1\n3 reboot 2\n4 partition 3\n5 heal 4\n6 heal-all\n",
            &[
                (1, "crash", 0),
                (2, "restart", 1),
                (3, "reboot", 2),
                (4, "partition", 3),
                (5, "heal", 4),
                (6, "heal-all", 0),
            ],
        ),
        // Equal ticks keep file order.
        accepted(
            "7 crash 3\n7 crash 1\n6 heal 9\n7 crash 2\n",
            &[
                (6, "heal", 9),
                (7, "crash", 3),
                (7, "crash", 1),
                (7, "crash", 2),
            ],
        ),
        // Carriage returns, no final line feed, white space of every kind.
        accepted(
            "5 crash 1\r\n6 heal-all\r\n",
            &[(5, "crash", 1), (6, "heal-all", 0)],
        ),
        accepted("5 crash 1", &[(5, "crash", 1)]),
        accepted("5 crash 1\r6 x", &[(5, "crash", 1)]),
        accepted("\t 5\x0b\x0ccrash \r 1 \t\n", &[(5, "crash", 1)]),
        // Later words, and a comment that touches the id.
        accepted(
            "5 heal-all x y\n6 heal 2 3 crash\n7 heal 4#5\n",
            &[(5, "heal-all", 0), (6, "heal", 2), (7, "heal", 4)],
        ),
    ];
    // No event: nothing, blank lines, comments.
    for text in [
        "",
        "\n",
        "\n\n \t\r\x0b\x0c\n",
        "#",
        "# 5 crash 1\n   # more",
        "\r\n",
    ] {
        cases.push(accepted(text, &[]));
    }
    cases
}

/// A sign, leading zeros, the largest.
fn numbers() -> Vec<Ruled> {
    let zeros = "0".repeat(50);
    vec![
        accepted("+007 crash +0\n", &[(7, "crash", 0)]),
        accepted(
            format!("{zeros}1 heal 18446744073709551615\n"),
            &[(1, "heal", LARGEST)],
        ),
        accepted(
            "18446744073709551615 heal-all\n18446744073709551614 crash 00000000000000000001\n",
            &[(LARGEST - 1, "crash", 1), (LARGEST, "heal-all", 0)],
        ),
    ]
}

/// 1 and 2.
fn texts() -> Vec<Ruled> {
    let mut filled = b"5 heal 1\n".to_vec();
    filled.resize(65_536, b'#');
    let mut long = b"x\n".to_vec();
    long.resize(65_537, 128);
    vec![
        // Over 65,536 bytes, whatever else is wrong; 65,536 are read.
        accepted(filled, &[(5, "heal", 1)]),
        accepted(vec![b' '; 65_536], &[]),
        refused(vec![b' '; 65_537], 1, 0),
        refused(long, 1, 0),
        // The line of the first byte over 127 that may not be there, before any other line's fault.
        refused(b"5\n\x80", 2, 2),
        refused(b"1,500 crash 1\n# \xff\n", 2, 2),
        refused(b"\xc3\xa9 crash 1\n", 2, 1),
        // In a comment UTF-8 may stand, and nothing else over 127.
        accepted("5 crash 1 # Süd-Ost\n", &[(5, "crash", 1)]),
        accepted("# \u{7ff}\u{800}\u{ffff}\u{10000}\u{10ffff}", &[]),
        accepted("5 heal 1 # \u{85}\u{2028}6 heal 2\n", &[(5, "heal", 1)]),
        refused("5 cr\u{e4}sh 1\n", 2, 1),
        refused(b"\xef\xbb\xbf# mark", 2, 1),
        refused(b"# \xc0\x80", 2, 1),
        refused(b"# \xed\xa0\x80", 2, 1),
        refused(b"# \xf4\x90\x80\x80", 2, 1),
        refused(b"# \xc3#\xa9", 2, 1),
        refused(b"5\n# \xe2\x82\n\xac", 2, 2),
        refused(b"5\n# \xe2\x82", 2, 2),
        accepted("# \x7f\n", &[]),
    ]
}

/// Words that are no number: why, and at which byte. The earliest reason wins; leading zeros and the sign are bytes like others.
const BAD_NUMBERS: [(&str, u32, u32); 27] = [
    ("+", 1, 1),
    ("1,500", 2, 1),
    ("1.5", 2, 1),
    ("-0", 2, 0),
    ("-1", 2, 0),
    ("x", 2, 0),
    ("++1", 2, 1),
    ("+-1", 2, 1),
    ("+x", 2, 1),
    ("1+", 2, 1),
    ("5x", 2, 1),
    ("x5", 2, 0),
    ("0x5", 2, 1),
    ("00,1", 2, 2),
    ("5\x7f", 2, 1),
    ("\x1c5", 2, 0),
    ("18446744073709551615x", 2, 20),
    ("1844674407370955161x", 2, 19),
    ("18446744073709551616", 3, 19),
    ("18446744073709551616x", 3, 19),
    ("18446744073709551620", 3, 19),
    ("99999999999999999999", 3, 19),
    ("184467440737095516150", 3, 20),
    ("100000000000000000000000", 3, 20),
    ("+18446744073709551616", 3, 20),
    ("0018446744073709551616,", 3, 21),
    ("+000000018446744073709551616", 3, 27),
];

/// 3 to 7.
fn faulty_lines() -> Vec<Ruled> {
    let mut cases = vec![
        refused("\n\n5\n", 3, 3),
        refused("x # y\n", 3, 1),
        refused("1,500", 3, 1),
        bad("1,500 foo\n", 4, 1, 2, 1),
        // The first faulty line answers.
        refused("5 crash 1\n6 x\n7\n", 5, 2),
    ];
    for (word, why, byte) in BAD_NUMBERS {
        cases.push(bad(format!("\n{word} crash 1\n"), 4, 2, why, byte));
        cases.push(bad(format!("5 crash {word}\n"), 7, 1, why, byte));
        cases.push(bad(format!("{word} x 1,500\n"), 4, 1, why, byte));
    }
    // Unknown faults, before a missing id.
    for name in [
        "foo",
        "Crash",
        "crashx",
        "cras",
        "heal-al",
        "heal-alls",
        "healall",
        "heal_all",
        "1",
    ] {
        cases.push(refused(format!("5 {name}\n"), 5, 1));
        cases.push(refused(format!("5 {name} 1\n"), 5, 1));
    }
    for name in ["crash", "restart", "reboot", "partition", "heal"] {
        cases.push(refused(format!("6 heal 1\n5 {name} # 1\n"), 6, 2));
    }
    cases
}

/// 8: 2,048 events are read where there is room for so many, in falling order too; the next one is refused at its line, and tested
/// last on it.
fn many_events() -> Vec<Ruled> {
    let falling: Vec<(u64, &str, u64)> = (0..2_048).map(|id| (2_048 - id, "crash", id)).collect();
    let text: String = falling
        .iter()
        .map(|(tick, name, id)| format!("{tick} {name} {id}\n"))
        .collect();
    let rising: Vec<(u64, &str, u64)> = falling.into_iter().rev().collect();
    vec![
        accepted(&text, &rising),
        refused(format!("{text}5 crash 1\n"), 8, 2_049),
        refused(format!("{text}\n# more\n5 heal-all"), 8, 2_051),
        bad(format!("{text}5 crash 1x\n"), 7, 2_049, 2, 1),
    ]
}

#[cfg(test)]
mod tests {
    use super::*;
    use crate::expected::answer;
    use crate::sample::ROOM;

    #[test]
    fn the_rust_says_the_same() {
        for (text, ruled) in cases() {
            assert_eq!(answer(&text, ROOM), ruled, "{}", text.escape_ascii());
        }
    }
}
