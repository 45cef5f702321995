//! Why a word is no number and at which byte, by a plain evaluation of the rules (RULES, "Fault scripts", numbers): the first byte such
//! that no number begins with the bytes up to it. The Rust tells neither; that a word is a number or none is held against it.

/// Why a word is no number (1 no digit, 2 a stray byte, 3 too large), and the byte's place in the word, from 0.
#[derive(Clone, Copy, Debug, Default, PartialEq, Eq)]
pub struct Flaw {
    pub why: u32,
    pub byte: u32,
}

const LARGEST: &str = "18446744073709551615";

/// The flaw of a word, or none if it is a number.
pub fn flaw(word: &[u8]) -> Option<Flaw> {
    if let Some(place) = (0..word.len()).find(|&place| !begins_a_number(&word[..=place])) {
        let why = if word[place].is_ascii_digit() { 3 } else { 2 };
        return Some(told(why, place));
    }
    let has_digit = word.last().is_some_and(u8::is_ascii_digit);
    (!has_digit).then(|| told(1, word.len()))
}

fn told(why: u32, byte: usize) -> Flaw {
    let byte = u32::try_from(byte).expect("a text that is read has fewer than 2^32 bytes");
    Flaw { why, byte }
}

/// Whether some number begins with these bytes: a `+` or none, and digits whose value, as far as they go, is not over the largest. The
/// digits are compared as digits, so that nothing can wrap.
fn begins_a_number(bytes: &[u8]) -> bool {
    let digits = bytes.strip_prefix(b"+").unwrap_or(bytes);
    let zeros = digits.iter().take_while(|&&byte| byte == b'0').count();
    let digits = &digits[zeros..];
    let small = match digits.len().cmp(&LARGEST.len()) {
        std::cmp::Ordering::Less => true,
        std::cmp::Ordering::Equal => digits <= LARGEST.as_bytes(),
        std::cmp::Ordering::Greater => false,
    };
    digits.iter().all(u8::is_ascii_digit) && small
}

#[cfg(test)]
mod tests {
    use super::*;

    fn of(word: &str) -> Option<(u32, u32)> {
        flaw(word.as_bytes()).map(|flaw| (flaw.why, flaw.byte))
    }

    #[test]
    fn the_words_of_the_rules() {
        assert_eq!(of("1,500"), Some((2, 1)));
        assert_eq!(of("18446744073709551616x"), Some((3, 19)));
        assert_eq!(of("18446744073709551616"), Some((3, 19)));
        assert_eq!(of("18446744073709551615"), None);
        assert_eq!(of("184467440737095516150"), Some((3, 20)));
        assert_eq!(of("99999999999999999999"), Some((3, 19)));
        assert_eq!(of("+"), Some((1, 1)));
        assert_eq!(of("+x"), Some((2, 1)));
        assert_eq!(of("++1"), Some((2, 1)));
        assert_eq!(of("-1"), Some((2, 0)));
        assert_eq!(of(""), Some((1, 0)));
        assert_eq!(of("0018446744073709551616"), Some((3, 21)));
        assert_eq!(of("+007"), None);
        assert_eq!(of("1844674407370955161x6"), Some((2, 19)));
    }

    #[test]
    fn the_rust_finds_the_same_words_bad() {
        for word in ["1,500", "+", "", "+7", "-0", "18446744073709551615", "18446744073709551616", "1+", "000"] {
            assert_eq!(word.parse::<u64>().is_err(), flaw(word.as_bytes()).is_some(), "{word}");
        }
    }
}
