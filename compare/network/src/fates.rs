//! Fates alone: what a message's draws and extras decide under options, with no network at hand. What is expected is read off a send of
//! the Rust on a fresh network of these options; the refusals are tested in the rules' order.

use crate::run::{bad, dues, lend, options_of, sent, Sending};
use calls::case::{Call, Case, Row};
use calls::nets::{self, Options, Told};
use oracle::network::{Judge, NetworkOptions};

/// The refusals of a fate, in the order in which they are tested.
pub const REFUSALS: [u64; 7] = [20, 21, 22, 24, 26, 27, 28];

/// What else a run must meet.
pub const OUTCOMES: [&str; 7] = [
    "fate: lost",
    "fate: replayed",
    "fate: once",
    "fate: not faulted",
    "fate: the mean is the minimum",
    "fate: an extra of 0",
    "fate: words behind those used",
];

/// All of them.
pub fn outcomes() -> Vec<String> {
    let refused = REFUSALS.map(|number| format!("fate: refusal {number}"));
    let named = OUTCOMES.iter().map(|name| name.to_string());
    named.chain(refused).collect()
}

/// The fate of a message under options, with `surplus` behind what is used of the draws and the extras.
pub fn case(options: Options, sending: &Sending, surplus: &[u64]) -> Case {
    let unfit = bad(options);
    // Where the options are bad the Rust is not asked, and the lists are those of the perfect ones.
    let judge = Judge::new(match unfit {
        0 => options_of(options),
        _ => NetworkOptions::perfect(),
    });
    let sent = sent(&judge, false, sending);
    let (mut draws, mut extras) = (sent.draws.clone(), sent.extras.clone());
    lend(&mut draws, surplus, sending.cut[0]);
    lend(&mut extras, surplus, sending.cut[1]);
    let refusal = if unfit == 0 { sent.refusal } else { unfit };
    let [_, _, lost, replayed, _] = sent.after.counters();
    // A replayed message's copy is numbered first.
    let dues = match dues(&sent.after, 0)[..] {
        [] => [0, 0],
        [due] => [0, due],
        [copy, due] => [copy, due],
        _ => panic!("a message has two copies at most"),
    };
    let used = [sent.draws.len(), sent.extras.len()];
    let fate = [
        lost,
        replayed,
        used[0] as u64,
        used[1] as u64,
        dues[0],
        dues[1],
    ];
    let letter = sending.letter;
    let mut numbers = options.to_vec();
    numbers.extend([letter.now, letter.kind]);
    numbers.extend([draws.len() as u64, extras.len() as u64]);
    let answer = match refusal {
        0 => Ok(Told::Fate(fate)),
        number => Err(number),
    };
    let mut case = nets::case(Call::Fate, &numbers, answer);
    case.met.clear();
    if refusal != 0 {
        case = case.meets(format!("fate: refusal {refusal}"));
    } else {
        let is_faulted = letter.kind != 0 || options[4] != 0;
        let met = [
            lost == 1,
            replayed == 1,
            lost == 0 && replayed == 0 && is_faulted,
            !is_faulted,
            lost == 0 && is_faulted && options[2] == options[3],
            sent.extras.contains(&0),
            draws.len() > used[0] || extras.len() > used[1],
        ];
        for (name, _) in OUTCOMES.into_iter().zip(met).filter(|(_, met)| *met) {
            case = case.meets(name);
        }
    }
    let case = case.put(Row::Draws, 0, &draws);
    case.put(Row::Extras, 0, &extras)
}
