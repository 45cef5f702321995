//! Comments in UTF-8: the line that has something else, by the rules and the standard library's own test, and texts about it.

use calls::draws::Draws;

/// What is wrong with the first line that has a byte over 127 where none may be.
#[derive(Clone, Copy, Debug, PartialEq, Eq)]
pub enum Stray {
    /// It stands before the line's `#`.
    BeforeHash,
    /// A byte that begins no character: a continuation byte.
    Lone,
    /// A character in more bytes than it needs.
    Overlong,
    /// Half of a pair.
    Surrogate,
    /// Over U+10FFFF.
    Above,
    /// Another byte where a continuation byte must stand.
    Broken,
    /// Cut by the line feed.
    CutByLine,
    /// Cut by the end of the text.
    CutByText,
}

pub const STRAYS: [(Stray, &str); 8] = [
    (Stray::BeforeHash, "before the hash"),
    (Stray::Lone, "a continuation byte alone"),
    (Stray::Overlong, "overlong"),
    (Stray::Surrogate, "a surrogate"),
    (Stray::Above, "above the last scalar value"),
    (Stray::Broken, "a character broken off"),
    (Stray::CutByLine, "cut by a line feed"),
    (Stray::CutByText, "cut by the end of the text"),
];

/// The first stray line of a text, counted from 1, and what is wrong with it.
pub fn stray(text: &[u8]) -> Option<(usize, Stray)> {
    let last = text.split(|&byte| byte == b'\n').count();
    let lines = text.split(|&byte| byte == b'\n').enumerate();
    lines
        .filter_map(|(place, line)| {
            let at = line.iter().position(|&byte| byte == b'#');
            let (words, comment) = line.split_at(at.unwrap_or(line.len()));
            if !words.is_ascii() {
                return Some((place + 1, Stray::BeforeHash));
            }
            let fault = fault_of(comment, place + 1 == last)?;
            Some((place + 1, fault))
        })
        .next()
}

/// What the standard library finds wrong with a comment, its `#` in front.
fn fault_of(comment: &[u8], is_last: bool) -> Option<Stray> {
    let error = std::str::from_utf8(comment).err()?;
    let rest = &comment[error.valid_up_to()..];
    let second = rest.get(1).copied().unwrap_or(0);
    if error.error_len().is_none() {
        return Some(if is_last {
            Stray::CutByText
        } else {
            Stray::CutByLine
        });
    }
    Some(match (rest[0], second) {
        (0x80..=0xbf, _) => Stray::Lone,
        (0xc0 | 0xc1, _) | (0xe0, 0x80..=0x9f) | (0xf0, 0x80..=0x8f) => Stray::Overlong,
        (0xed, 0xa0..=0xbf) => Stray::Surrogate,
        (0xf5..=0xff, _) | (0xf4, 0x90..=0xbf) => Stray::Above,
        _ => Stray::Broken,
    })
}

/// The most bytes of a character in a text that is UTF-8.
pub fn widest(text: &[u8]) -> usize {
    let text = std::str::from_utf8(text).unwrap_or("");
    text.chars().map(char::len_utf8).max().unwrap_or(1)
}

/// The scalar values at the ends of the ranges of UTF-8.
const ENDS: [u32; 18] = [
    0, 0x7f, 0x80, 0x81, 0x7fe, 0x7ff, 0x800, 0x801, 0xd7fe, 0xd7ff, 0xe000, 0xe001, 0xfffe, 0xffff, 0x10000, 0x10001,
    0x10fffe, 0x10ffff,
];

/// First bytes, and bytes behind them, at the ends of their ranges, with a hash and a line feed.
const FIRST: [u8; 17] = [
    0x7f, 0x80, 0xbf, 0xc0, 0xc1, 0xc2, 0xdf, 0xe0, 0xe1, 0xec, 0xed, 0xee, 0xef, 0xf0, 0xf3, 0xf4, 0xf5,
];
const BEHIND: [u8; 11] = [
    b'x', b'#', b'\n', 0x7f, 0x80, 0x8f, 0x90, 0x9f, 0xa0, 0xbf, 0xc0,
];

/// Every comment of two bytes, of the bytes at the ends of ranges up to four, and of the scalar values at the ends.
pub fn exhaustive() -> impl Iterator<Item = Vec<u8>> {
    let two = (0..=u16::MAX).map(|word| vec![b'#', (word >> 8) as u8, word as u8]);
    let four = FIRST.iter().flat_map(|&a| {
        BEHIND.iter().flat_map(move |&b| {
            BEHIND
                .iter()
                .flat_map(move |&c| BEHIND.iter().map(move |&d| vec![b'#', a, b, c, d]))
        })
    });
    let three = FIRST.iter().flat_map(|&a| {
        BEHIND
            .iter()
            .flat_map(move |&b| BEHIND.iter().map(move |&c| vec![b'#', a, b, c]))
    });
    let ends = ENDS.iter().flat_map(|&scalar| {
        let letter = char::from_u32(scalar).expect("a scalar value");
        [
            format!("5 crash 1 # {letter}\n6 heal-all"),
            format!("5 crash 1#{letter}{letter}#{letter}"),
        ]
        .map(String::into_bytes)
    });
    two.chain(three).chain(four).chain(ends)
}

/// A scalar value, as many of each length.
fn scalar(draws: &mut Draws) -> char {
    let (from, to) = [
        (0x20, 0x7f),
        (0x80, 0x7ff),
        (0x800, 0xffff),
        (0x1_0000, 0x10_ffff),
    ][draws.below(4)];
    loop {
        let number = draws.between(from, to) as u32;
        if let Some(letter) = char::from_u32(number) {
            return letter;
        }
    }
}

/// A script of good lines with comments in UTF-8, damaged or not.
pub fn commented(draws: &mut Draws) -> Vec<u8> {
    let mut text = Vec::new();
    for line in 0..draws.between(1, 6) {
        if !draws.once_in(3) {
            text.extend(format!("{} crash {line} ", draws.below(40)).bytes());
        }
        text.push(b'#');
        for _ in 0..draws.below(12) {
            text.extend(scalar(draws).to_string().bytes());
        }
        text.push(b'\n');
    }
    if draws.once_in(2) {
        text.pop();
    }
    if draws.once_in(2) {
        damage(draws, &mut text);
    }
    text
}

/// Drops, changes, doubles or puts in a byte, cuts the text, or puts in something that is nearly a character.
fn damage(draws: &mut Draws, text: &mut Vec<u8>) {
    const NEARLY: [&[u8]; 12] = [
        b"\xc0\x80",
        b"\xc1\xbf",
        b"\xe0\x80\x80",
        b"\xe0\x9f\xbf",
        b"\xed\xa0\x80",
        b"\xed\xbf\xbf",
        b"\xf0\x8f\xbf\xbf",
        b"\xf4\x90\x80\x80",
        b"\xf5\x80\x80\x80",
        b"\xe2\x82\n\xac",
        b"\xff",
        b"\xf0\x9f\x90",
    ];
    let place = draws.below(text.len() + 1);
    match draws.below(6) {
        0 => text.truncate(place),
        1 => {
            let nearly = draws.pick(&NEARLY);
            text.splice(place..place, nearly.iter().copied());
        }
        2 if place < text.len() => {
            text.remove(place);
        }
        3 if place < text.len() => text[place] = draws.between(128, 255) as u8,
        4 => text.insert(place, b'\n'),
        _ => text.insert(place, draws.between(128, 255) as u8),
    }
}

#[cfg(test)]
mod tests {
    use super::*;

    #[test]
    fn each_fault_has_its_name() {
        let cases: [(&[u8], Option<(usize, Stray)>); 14] = [
            ("5 crash 1 # Süd-Ost\n".as_bytes(), None),
            ("5 cräsh 1\n".as_bytes(), Some((1, Stray::BeforeHash))),
            (b"\xef\xbb\xbf# mark", Some((1, Stray::BeforeHash))),
            (b"#\n#\x80", Some((2, Stray::Lone))),
            (b"#\xc0\x80", Some((1, Stray::Overlong))),
            (b"#\xe0\x80\x80", Some((1, Stray::Overlong))),
            (b"#\xed\xa0\x80", Some((1, Stray::Surrogate))),
            (b"#\xf4\x90\x80\x80", Some((1, Stray::Above))),
            (b"#\xc3#\xa9", Some((1, Stray::Broken))),
            (b"#\xc3\n\xa9", Some((1, Stray::CutByLine))),
            (b"#\xe2\x82", Some((1, Stray::CutByText))),
            (b"#\xe2\x82\xac", None),
            ("#\u{85}\u{2028}x\n5".as_bytes(), None),
            (b"# ## \xf0\x9f\x90\x91", None),
        ];
        for (text, expected) in cases {
            assert_eq!(stray(text), expected, "{}", text.escape_ascii());
        }
    }
}
