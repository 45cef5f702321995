//! What the comparisons of the network and of the journal share: the places of a network's words, the words that are told of a call,
//! and random options, ticks, draws and rooms.

use crate::case::{Call, Case, Row};
use crate::draws::Draws;

/// Words of an output, and what fills it before it is lent.
pub const ROOM: usize = 1_040;
pub const PATTERN: u64 = 0xa5a5_5a5a_c3c3_3c3c;

/// The places of a network's words: the records, and behind them these.
pub const PENDING: usize = 1_024;
pub const SEQ: usize = 1_025;
pub const SENT: usize = 1_026;
pub const LOST: usize = 1_028;
pub const DELAYED: usize = 1_030;
pub const LOSS: usize = 1_031;
pub const MIN: usize = 1_033;
pub const MEAN: usize = 1_034;
pub const FLAG: usize = 1_035;

/// Loss bits, replay bits, min, mean, flag.
pub type Options = [u64; 5];

/// What stands in our network for bits that are no probability.
const TWO: f64 = 2.0;

/// A network's head: its options, and behind them pending, seq and the counters.
pub fn head(network: &[u64]) -> Vec<u64> {
    let mut words = network[LOSS..=FLAG].to_vec();
    words.extend(&network[PENDING..=DELAYED]);
    words
}

/// The row and place of a network's word.
pub fn place(place: usize) -> (Row, usize) {
    match place {
        0..PENDING => (Row::Records, place),
        PENDING..=DELAYED => (Row::Head, 5 + place - PENDING),
        _ => (Row::Head, place - LOSS),
    }
}

/// What a call tells if it is accepted. What it is told into is filled with a pattern before.
pub enum Told {
    Nothing,
    /// Whether it is lost, whether it is replayed, draws and extras used.
    Sent([u64; 4]),
    /// The words that a list of records is written to, and how many they are.
    Listed(Vec<u64>),
    Count(u64),
    /// Whether it is lost, whether it is replayed, draws and extras used, the copy's due tick and the original's.
    Fate([u64; 6]),
}

/// A case on a network, with what it tells or the number of its refusal.
pub fn case(call: Call, numbers: &[u64], answer: Result<Told, u64>) -> Case {
    let mut case = Case::new(call, numbers, answer.as_ref().err().copied().unwrap_or(0));
    for row in [Row::Told1, Row::Told4, Row::Told6, Row::Out] {
        if call.writes().contains(&row) {
            case = case.filled(row, PATTERN);
        }
    }
    match answer {
        Err(number) => case.meets(format!("refusal {number}")),
        Ok(Told::Nothing) => case,
        Ok(Told::Sent(words)) => case.expects(Row::Told4, 0, &words),
        Ok(Told::Fate(words)) => case.expects(Row::Told6, 0, &words),
        Ok(Told::Count(count)) => case.expects(Row::Told1, 0, &[count]),
        Ok(Told::Listed(words)) => {
            let count = words.len() as u64 / 8;
            let case = case.expects(Row::Told1, 0, &[count]);
            case.expects(Row::Out, 0, &words)
        }
    }
}

/// The outcomes of a call that is accepted on a network of these words, and leaves those.
pub fn outcomes(case: &Case, before: &[u64], after: &[u64]) -> Vec<&'static str> {
    let told = |row: Row, place: usize| {
        let words = case.after.iter().find(|words| words.row == row);
        words.map_or(0, |words| words.words[place])
    };
    match case.call {
        Call::NetworkSetOptions | Call::JournalSetOptions => vec!["options set"],
        Call::NetworkSend | Call::JournalSend => {
            let is_request = case.numbers[4] == 0;
            let mut met = vec![match (told(Row::Told4, 0), told(Row::Told4, 1)) {
                (1, _) => "lost",
                (_, 1) => "replayed",
                _ if is_request && before[FLAG] == 0 => "not faulted",
                _ => "queued once",
            }];
            if before[DELAYED] < after[DELAYED] {
                met.push("delayed");
            }
            if after[PENDING] == 128 {
                met.push("left full");
            }
            met
        }
        Call::NetworkTakeDue | Call::JournalTakeDue => match told(Row::Told1, 0) {
            0 => vec!["none taken"],
            _ if after[PENDING] == 0 => vec!["all taken"],
            _ => vec!["some taken"],
        },
        _ => Vec::new(),
    }
}

/// A first tick.
pub fn first_tick(draws: &mut Draws) -> u64 {
    match draws.below(4) {
        0 => draws.below(3) as u64,
        1 => u64::MAX - draws.below(300) as u64,
        2 => draws.word(),
        _ => draws.below(100_000) as u64,
    }
}

/// Clocks go on, stand, go back and jump.
pub fn next_tick(clock: u64, draws: &mut Draws) -> u64 {
    match draws.below(40) {
        0 => clock.saturating_sub(draws.below(30) as u64),
        1 => clock.saturating_add(draws.below(200) as u64),
        2..=20 => clock,
        _ => clock.saturating_add(draws.below(3) as u64),
    }
}

fn probability(draws: &mut Draws) -> f64 {
    match draws.below(16) {
        0 | 1 => 0.0,
        2 => -0.0,
        3 => 1.0,
        4 => 2f64.powi(-65),
        5 => 2f64.powi(-64),
        6 => f64::from_bits(1f64.to_bits() - 1),
        7 => f64::from_bits(draws.word() % (1f64.to_bits() + 1)),
        8..=11 => (draws.word() >> 11) as f64 / 2f64.powi(53),
        _ => [0.5, 0.1, 0.01, 0.05, 0.25][draws.below(5)],
    }
}

pub fn options(draws: &mut Draws) -> Options {
    let min = match draws.below(12) {
        0 => u64::MAX - draws.below(200) as u64,
        1 => draws.word(),
        2..=4 => 0,
        _ => draws.below(20) as u64,
    };
    let mean = match draws.below(6) {
        0 | 1 => min,
        2 => min.saturating_add(draws.word() >> draws.below(64)),
        _ => min.saturating_add(1 + draws.below(30) as u64),
    };
    let loss = if draws.once_in(2) {
        probability(draws) / 4.0
    } else {
        probability(draws)
    };
    [
        loss.to_bits(),
        probability(draws).to_bits(),
        min,
        mean,
        draws.below(2) as u64,
    ]
}

/// Bits of no probability: over 1, under 0, infinite or no number.
pub fn bad_probability(draws: &mut Draws) -> u64 {
    let one = 1f64.to_bits();
    match draws.below(6) {
        0 => one + 1,
        1 => TWO.to_bits(),
        2 => f64::NAN.to_bits(),
        3 => (-0f64).to_bits() + 1 + draws.word() % (1 << 62),
        4 => f64::INFINITY.to_bits(),
        _ => one + 1 + draws.word() % (1 << 61),
    }
}

/// Options with one thing broken, or two, of which the earlier counts.
pub fn bad_options(draws: &mut Draws) -> Options {
    let mut options = options(draws);
    let first = draws.below(3);
    for broken in [first, draws.below(3)] {
        match broken {
            0 => options[0] = bad_probability(draws),
            1 => options[1] = bad_probability(draws),
            _ => {
                options[3] = draws.below(50) as u64;
                options[2] = options[3] + 1 + draws.below(50) as u64;
            }
        }
    }
    options
}

/// Options of which one in so many is bad.
pub fn options_bad_once_in(times: usize, draws: &mut Draws) -> Options {
    if draws.once_in(times) {
        bad_options(draws)
    } else {
        options(draws)
    }
}

/// A word for a draw on p: any, the ends, and those beside p * 2^64.
pub fn draw(p: f64, draws: &mut Draws) -> u64 {
    let whole = (p * 2f64.powi(64)) as u64;
    match draws.below(8) {
        0 => whole,
        1 => whole.saturating_sub(1),
        2 => whole.saturating_add(1),
        3 => [0, u64::MAX][draws.below(2)],
        _ => draws.word(),
    }
}

pub fn any_number(draws: &mut Draws) -> u64 {
    match draws.below(4) {
        0 => draws.word(),
        1 => u64::MAX - draws.below(3) as u64,
        _ => draws.below(9) as u64,
    }
}

/// A room for so many records: ample, exact, short or any.
pub fn room(records: usize, draws: &mut Draws) -> usize {
    let exact = 8 * records;
    match draws.below(8) {
        0 => exact,
        1 => exact.saturating_sub(1),
        2 => draws.below(ROOM + 1),
        3 => exact + draws.below(9),
        _ => ROOM,
    }
}

/// A place of a network's words and a value there that break one rule of a well formed network.
pub fn ill_formed(network: &[u64], draws: &mut Draws) -> Option<(usize, u64)> {
    let pending = network[PENDING] as usize;
    let some = if pending == 0 {
        0
    } else {
        8 * draws.below(pending)
    };
    match draws.below(12) {
        // Pending, seq, sent, delivered, lost, replayed: each follows from the others, modulo 2^64 too.
        0..=2 => {
            let place = draws.between(PENDING, DELAYED - 1);
            let other = any_number(draws);
            let is_other = draws.once_in(2) && other != network[place];
            Some((place, if is_other { other } else { network[place] + 1 }))
        }
        3 => Some((PENDING, any_number(draws).max(129))),
        4 => Some((DELAYED, network[SEQ] + 1 + draws.below(5) as u64)),
        // Options; bits that are no probability stand for 2.
        5 => Some((LOSS + draws.below(2), TWO.to_bits())),
        6 => (network[MEAN] < u64::MAX).then(|| (MIN, network[MEAN] + 1)),
        // A word behind the records.
        7 => {
            (pending < 128).then(|| (draws.between(8 * pending, 1_023), 1 + draws.below(9) as u64))
        }
        // A record's sort and kind.
        8 => (pending > 0).then(|| (some + 3, any_number(draws).max(2))),
        9 => (pending > 0).then(|| (some + 6, any_number(draws).max(11))),
        // A record's number: none, over the network's, or another's.
        10 => match draws.below(3) {
            0 => (pending > 0).then(|| (some + 1, 0)),
            1 => (pending > 0).then(|| (some + 1, network[SEQ] + 1)),
            _ => (pending > 1).then(|| (8 * (pending - 1) + 1, network[1])),
        },
        // The order: the first due after the second.
        _ => (pending > 1 && network[8] < u64::MAX).then(|| (0, network[8] + 1)),
    }
}
