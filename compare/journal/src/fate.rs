//! What becomes of a message, by the rules alone (docs/RULES.md, "The network"): which draws and extras it uses,
//! whether it is lost, and when its copies are due. Over whole numbers.

use calls::nets::Options;

/// What a send is told of its message.
#[derive(Clone, Copy, Debug)]
pub struct Letter {
    pub now: u64,
    pub sort: u64,
    pub origin: u64,
    pub to: u64,
    pub kind: u64,
    pub handle: u64,
}

/// When the copies are due, in the order of their numbers, how many have an extra above 0, and what was used.
#[derive(Clone, Debug)]
pub struct Fate {
    pub dues: Vec<u64>,
    pub delayed: u64,
    pub draws: usize,
    pub extras: usize,
}

impl Fate {
    pub fn is_lost(&self) -> bool {
        self.dues.is_empty()
    }

    pub fn is_replayed(&self) -> bool {
        self.dues.len() == 2
    }
}

const ONE: u64 = 0x3ff0_0000_0000_0000;
const NEGATIVE_ZERO: u64 = 1 << 63;

pub fn is_probability(bits: u64) -> bool {
    bits <= ONE || bits == NEGATIVE_ZERO
}

/// The first of 20 to 22 that options meet.
pub fn refused_options(options: Options) -> Result<(), u64> {
    if !is_probability(options[0]) {
        return Err(20);
    }
    if !is_probability(options[1]) {
        return Err(21);
    }
    if options[2] > options[3] {
        return Err(22);
    }
    Ok(())
}

/// The whole part of p * 2^64: (2^52 + f) * 2^e divided by 2^1011.
fn threshold(bits: u64) -> u128 {
    let exponent = (bits >> 52) & 0x7ff;
    let fraction = u128::from((1u64 << 52) + (bits & ((1 << 52) - 1)));
    if exponent >= 1_011 {
        return fraction << (exponent - 1_011);
    }
    fraction.checked_shr(1_011 - exponent as u32).unwrap_or(0)
}

pub fn uses_a_draw(bits: u64) -> bool {
    ![0, NEGATIVE_ZERO, ONE].contains(&bits)
}

/// A yes or no draw, which uses a word from the front of what is left; 26 if there is none.
fn says_yes(bits: u64, draws: &mut &[u64]) -> Result<bool, u64> {
    if !uses_a_draw(bits) {
        return Ok(bits == ONE);
    }
    let (word, rest) = draws.split_first().ok_or(26u64)?;
    *draws = rest;
    Ok(u128::from(*word) < threshold(bits))
}

/// The fate of a message, or the first of 26 to 28 that it meets.
pub fn fate(options: Options, letter: &Letter, draws: &[u64], extras: &[u64]) -> Result<Fate, u64> {
    let [loss, replay, min, mean, client_faults] = options;
    if letter.kind == 0 && client_faults == 0 {
        return Ok(Fate {
            dues: vec![letter.now],
            delayed: 0,
            draws: 0,
            extras: 0,
        });
    }
    let mut left = draws;
    let copies = if says_yes(loss, &mut left)? {
        0
    } else if says_yes(replay, &mut left)? {
        2
    } else {
        1
    };
    let used = if mean == min { 0 } else { copies };
    let lent = extras.get(..used).ok_or(27u64)?;
    let extra_of = |copy: usize| lent.get(copy).copied().unwrap_or(0);
    let due_of = |copy: usize| {
        let due = u128::from(letter.now) + u128::from(min) + u128::from(extra_of(copy));
        u64::try_from(due).map_err(|_| 28u64)
    };
    Ok(Fate {
        dues: (0..copies).map(due_of).collect::<Result<_, _>>()?,
        delayed: lent.iter().filter(|extra| **extra > 0).count() as u64,
        draws: draws.len() - left.len(),
        extras: used,
    })
}
