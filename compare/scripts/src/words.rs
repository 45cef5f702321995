//! Random pieces of scripts: numbers, names, white space, lines. A good piece is one that the rules accept;
//! an odd one lies just beside them, and most often is refused.

use calls::draws::Draws;
use oracle::script::FAULT_NAMES;

/// Bytes beside white space in the table of ASCII, or taken for it elsewhere.
const NEARLY_WHITE: [u8; 8] = [0, 8, 14, 28, 29, 30, 31, 127];

/// A number that is read: small, of any size, at the upper end, with leading zeros, with a plus sign.
pub fn good_number(draws: &mut Draws) -> String {
    let number = match draws.below(6) {
        0..=2 => draws.below(30).to_string(),
        3 => draws.word().to_string(),
        4 => (u64::MAX - draws.below(3) as u64).to_string(),
        _ => (draws.word() >> draws.below(64)).to_string(),
    };
    let zeros = if draws.once_in(8) {
        "0".repeat(draws.between(1, 30))
    } else {
        String::new()
    };
    let plus = if draws.once_in(8) { "+" } else { "" };
    format!("{plus}{zeros}{number}")
}

/// A number at the edge of what is read, on either side.
pub fn edge_number(draws: &mut Draws) -> String {
    let edge = 1u128 << 64;
    match draws.below(6) {
        0 => (edge - draws.below(12) as u128).to_string(),
        1 => (edge + draws.below(12) as u128).to_string(),
        2 => twenty_digits(draws),
        // A sum that wraps around 2^64 comes out small.
        3 => (edge * draws.between(1, 12) as u128 + draws.below(100) as u128).to_string(),
        4 => format!(
            "{}{}",
            "0".repeat(draws.between(1, 40)),
            edge - draws.below(2) as u128
        ),
        _ => format!("{}{}", u64::MAX / 10, draws.below(10)),
    }
}

fn twenty_digits(draws: &mut Draws) -> String {
    let mut digits = draws
        .pick(&["1", "18", "1844674407370955161", "2"])
        .to_string();
    while digits.len() < 20 {
        digits += &draws.below(10).to_string();
    }
    digits
}

/// A word that looks like a number.
pub fn odd_number(draws: &mut Draws) -> String {
    let number = good_number(draws);
    match draws.below(8) {
        0 | 1 => edge_number(draws),
        2 => draws
            .pick(&[
                "+", "-", "-0", "-1", "++1", "+-1", "1+", "+ 1", "x", "0x10", "1e3",
            ])
            .to_string(),
        3 => draws
            .pick(&[
                "1,500", "1.5", "1_000", "1'000", "1,", ",1", "1;", "1.0", ".5", "5-",
            ])
            .to_string(),
        4 => format!("{number}{}", nearly_white(draws)),
        5 => format!("{}{number}", nearly_white(draws)),
        6 => format!("{}{number}", draws.pick(&["-", "+", "/", ":"])),
        _ => format!(
            "{number}{}",
            draws.pick(&["/", ":", "a", "+", "-", "crash"])
        ),
    }
}

pub fn good_name(draws: &mut Draws) -> &'static str {
    draws.pick(&FAULT_NAMES)
}

/// A name with a letter changed, dropped or doubled, in another case, cut off, or glued to something.
pub fn odd_name(draws: &mut Draws) -> String {
    let name = good_name(draws);
    match draws.below(8) {
        0 | 1 => damaged_text(draws, name),
        2 => name.to_uppercase(),
        3 => {
            let place = draws.below(name.len());
            format!(
                "{}{}{}",
                &name[..place],
                name[place..place + 1].to_uppercase(),
                &name[place + 1..]
            )
        }
        4 => format!(
            "{name}{}",
            draws.pick(&["s", "1", ",", "-all", "-", "ed", ":", "+1"])
        ),
        5 => format!("{name}{}", nearly_white(draws)),
        6 => name[..draws.between(1, name.len() - 1)].to_string(),
        _ => draws
            .pick(&[
                "foo",
                "healall",
                "heal_all",
                "heal-",
                "-all",
                "7",
                "stop",
                "heal-all-all",
            ])
            .to_string(),
    }
}

fn damaged_text(draws: &mut Draws, text: &str) -> String {
    let mut bytes = text.as_bytes().to_vec();
    damage(draws, &mut bytes);
    String::from_utf8(bytes).expect("damage leaves bytes up to 127")
}

/// Changes, drops or doubles one byte.
pub fn damage(draws: &mut Draws, text: &mut Vec<u8>) {
    if text.is_empty() {
        return;
    }
    let place = draws.below(text.len());
    match draws.below(4) {
        0 => text[place] = draws.below(128) as u8,
        1 => {
            text[place] = *draws.pick(&[
                &b'\n', &b'\r', &b' ', &b'#', &b'+', &b',', &b'0', &b'9', &31, &127,
            ])
        }
        2 => {
            text.remove(place);
        }
        _ => text.insert(place, text[place]),
    }
}

fn nearly_white(draws: &mut Draws) -> char {
    char::from(NEARLY_WHITE[draws.below(NEARLY_WHITE.len())])
}

/// White space between two words.
pub fn white(draws: &mut Draws) -> &'static str {
    draws.pick(&[
        " ",
        " ",
        " ",
        " ",
        "  ",
        "\t",
        "\x0b",
        "\x0c",
        "\r",
        " \t\r ",
        "\r\r",
        "\x0c \x0b",
    ])
}

/// What may stand between two words without parting them.
fn odd_gap(draws: &mut Draws) -> String {
    match draws.below(4) {
        0 => String::new(),
        1 => draws
            .pick(&[",", ";", "-", "#", " #", "\n", "# ", "+", " + "])
            .to_string(),
        _ => nearly_white(draws).to_string(),
    }
}

/// The end of a line that is not the last.
pub fn line_end(draws: &mut Draws) -> &'static str {
    draws.pick(&[
        "\n", "\n", "\n", "\n", "\n", "\r\n", "\n\n", "\n\r\n", " \n", "\n \t\n", "#\n",
    ])
}

/// A line without its end, of which about one piece in `rarity` is odd.
pub fn line(draws: &mut Draws, rarity: usize) -> String {
    if draws.once_in(10) {
        return draws
            .pick(&[
                "",
                " ",
                "\t\r",
                "# all quiet",
                "#",
                "  # 5 crash 1",
                "##",
                "\x0c#\x01",
            ])
            .to_string();
    }
    let mut line = String::new();
    if draws.once_in(6) {
        line += white(draws);
    }
    line += &if draws.once_in(rarity) {
        odd_number(draws)
    } else {
        good_number(draws)
    };
    if draws.once_in(rarity) {
        return line;
    }
    line += &gap(draws, rarity);
    let name = if draws.once_in(rarity) {
        odd_name(draws)
    } else {
        good_name(draws).to_string()
    };
    line += &name;
    let id_is_due = name != "heal-all";
    if id_is_due != draws.once_in(rarity) {
        line += &gap(draws, rarity);
        line += &if draws.once_in(rarity) {
            odd_number(draws)
        } else {
            good_number(draws)
        };
    }
    line + tail(draws)
}

fn gap(draws: &mut Draws, rarity: usize) -> String {
    if draws.once_in(2 * rarity) {
        odd_gap(draws)
    } else {
        white(draws).to_string()
    }
}

/// What may follow the words of a line and plays no part.
fn tail(draws: &mut Draws) -> &'static str {
    draws.pick(&[
        "",
        "",
        "",
        "",
        " ",
        "\r",
        " # east",
        "#",
        "\t#5 crash 1",
        " later words",
        " 7",
        " x # y # z",
        " -",
    ])
}
