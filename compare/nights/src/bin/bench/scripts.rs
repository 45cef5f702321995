//! Fault scripts of 64 KiB, and short ones.

use crate::timing::{both, timed, Row};
use bellmantle::EVENT_WORDS;
use nights::original;
use std::time::Duration;

const BYTES: usize = 65_536;
const TIMES: usize = 400;
/// Lines of the short ones, and how often each is parsed.
const SHORT: [(&str, usize); 3] = [
    ("three lines", 3),
    ("ten lines", 10),
    ("a hundred lines", 100),
];
const SHORT_TIMES: usize = 10_000;

pub fn rows() -> Vec<Row> {
    let rising = script(BYTES, |line| line);
    let falling = script(BYTES, |line| 99_999 - line);
    let comments = "# the copper limit of a night\n".repeat(BYTES / 30);
    let letters = "# Οκτώβρης: χαλκός για τα πρόβατα; 銅の限度、羊の夜\n";
    let foreign = letters.repeat(BYTES / letters.len());
    let texts = [
        ("64 KiB in file order", rising),
        ("64 KiB in falling order", falling),
        ("64 KiB of comments", comments),
        ("64 KiB of comments in UTF-8", foreign),
    ];
    let long = texts
        .iter()
        .flat_map(|(name, text)| [events(name, text, TIMES), words(name, text, TIMES)]);
    let short = SHORT.iter().flat_map(|&(name, lines)| {
        let text = script(lines, |line| 17 * line % 100);
        [
            events(name, &text, SHORT_TIMES),
            words(name, &text, SHORT_TIMES),
        ]
    });
    let tested = bytes(texts[3].0, &texts[3].1, TIMES);
    long.chain([tested]).chain(short).collect()
}

/// A script in file order of about so many bytes, to lent words.
pub fn of_length(bytes: usize) -> Row {
    let mut text = script(BYTES, |line| line);
    let end = text[..bytes.min(text.len())]
        .rfind('\n')
        .map_or(0, |last| last + 1);
    text.truncate(end);
    words("growing", &text, TIMES)
}

/// So many lines at most, and no more than fit.
fn script(lines: usize, tick: impl Fn(usize) -> usize) -> String {
    let names = ["crash", "restart", "reboot", "partition", "heal"];
    let mut text = String::new();
    for line in 0..lines {
        let next = format!("{} {} {}\n", tick(line), names[line % 5], line % 3);
        if text.len() + next.len() > BYTES {
            break;
        }
        text += &next;
    }
    text
}

/// Both to a vector of events.
fn events(name: &str, text: &str, times: usize) -> Row {
    let expected = told(text);
    let rust = || timed(|| original::parse_script(text).expect("the script is good")).0;
    let ours = || {
        let (time, script) = timed(|| bellmantle::parse_script(text.as_bytes()));
        let script = script.expect("the script is good");
        let seen = script
            .iter()
            .map(|&(tick, fault)| format!("{tick} {fault}"));
        assert!(seen.eq(expected.iter().cloned()));
        time
    };
    both(
        format!("parse_script, {name}, to a vector"),
        times,
        rust,
        ours,
    )
}

/// Ours to lent words, which are not cleared first.
fn words(name: &str, text: &str, times: usize) -> Row {
    let rust = || timed(|| original::parse_script(text).expect("the script is good")).0;
    lent(
        format!("the same, ours to lent words, {name}"),
        text,
        times,
        rust,
    )
}

/// Both from bytes: the Rust tests them for UTF-8 first, as whoever reads a file must.
fn bytes(name: &str, text: &str, times: usize) -> Row {
    let rust = || {
        let parse = || {
            let text = std::str::from_utf8(text.as_bytes()).expect("the text is UTF-8");
            original::parse_script(text).expect("the script is good")
        };
        timed(parse).0
    };
    let what = format!("the same, the Rust from bytes too, {name}");
    lent(what, text, times, rust)
}

/// Ours to lent words, beside the Rust in one way or another.
fn lent(what: String, text: &str, times: usize, rust: impl FnMut() -> Duration) -> Row {
    let expected = told(text);
    let mut lent = vec![0; BYTES / 9 * EVENT_WORDS];
    let ours = || {
        let (time, count) = timed(|| bellmantle::parse_script_into(text.as_bytes(), &mut lent));
        assert_eq!(count, Ok(expected.len()));
        time
    };
    both(what, times, rust, ours)
}

fn told(text: &str) -> Vec<String> {
    let script = original::parse_script(text).expect("the script is good");
    script
        .iter()
        .map(|(tick, fault)| format!("{tick} {fault}"))
        .collect()
}
