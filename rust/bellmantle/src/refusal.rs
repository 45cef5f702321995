//! Why a call is refused.

use std::fmt;

/// Why a call is refused, by the numbers of docs/RULES.md.
#[derive(Clone, Copy, Debug, PartialEq, Eq, Hash)]
#[non_exhaustive]
pub enum Refusal {
    /// 1: the text is over 65,536 bytes.
    TooLong,
    /// 2: a byte over 127 before the `#`, or a comment that is no UTF-8.
    BadByte,
    /// 3: only one word on the line.
    OneWord,
    /// 4: the tick is no number.
    BadTick,
    /// 5: there is no such fault.
    UnknownFault,
    /// 6: the fault needs a plant's id.
    MissingId,
    /// 7: the id is no number.
    BadId,
    /// 8: more events than there is room for.
    NoRoom,
    /// 20: the loss probability is not from 0 to 1.
    BadLoss,
    /// 21: the replay probability is not from 0 to 1.
    BadReplay,
    /// 22: the minimum delay is over the mean.
    MinOverMean,
    /// 23: the words are no well-formed network.
    IllFormed,
    /// 24: a message of no known kind or sender.
    BadMessage,
    /// 25: 2^62 messages were sent.
    SentLimit,
    /// 26: too few draws.
    ShortDraws,
    /// 27: too few extras.
    ShortExtras,
    /// 28: a message would be due after the last tick.
    LateTick,
    /// 29: more than 128 messages would be in flight.
    Full,
    /// 30: the output is shorter than the records, or has not a word for each that is to be judged.
    ShortOutput,
    /// 31: the journal's header is bad, or a record does not fit.
    BadJournal,
    /// 32: the journal has no room.
    JournalFull,
    /// 33: the journal holds fewer calls than are to be undone.
    TooFar,
    /// 40: there are not 3 to 15 plants.
    PlantCount,
    /// 41: there is no such plant.
    UnknownPlant,
    /// 42: the words are no state of plants.
    BadPlants,
    /// 43: a count would pass 2^62.
    CountLimit,
    /// 44: a reboot needs a draw.
    NoNonce,
    /// 45: the recovering flags are not one for each plant.
    BadFlags,
    /// 46: too few picks.
    ShortPicks,
    /// 47: a pick is out of its range.
    BadPick,
    /// 48: fewer healthy plants than a quorum.
    FewHealthy,
    /// 60: plants, logs, values or core of another shape.
    BadSnapshot,
    /// 61: the tracker is of another shape.
    BadTracker,
}

/// Each refusal with its number and its words.
const ALL: [(Refusal, u64, &str); 33] = [
    (Refusal::TooLong, 1, "the text is over 65,536 bytes"),
    (
        Refusal::BadByte,
        2,
        "a byte over 127 before the #, or a comment that is no UTF-8",
    ),
    (Refusal::OneWord, 3, "only one word on the line"),
    (Refusal::BadTick, 4, "the tick is no number"),
    (Refusal::UnknownFault, 5, "there is no such fault"),
    (Refusal::MissingId, 6, "the fault needs a plant's id"),
    (Refusal::BadId, 7, "the id is no number"),
    (Refusal::NoRoom, 8, "more events than there is room for"),
    (
        Refusal::BadLoss,
        20,
        "the loss probability is not from 0 to 1",
    ),
    (
        Refusal::BadReplay,
        21,
        "the replay probability is not from 0 to 1",
    ),
    (
        Refusal::MinOverMean,
        22,
        "the minimum delay is over the mean",
    ),
    (
        Refusal::IllFormed,
        23,
        "the words are no well-formed network",
    ),
    (
        Refusal::BadMessage,
        24,
        "a message of no known kind or sender",
    ),
    (Refusal::SentLimit, 25, "2^62 messages were sent"),
    (Refusal::ShortDraws, 26, "too few draws"),
    (Refusal::ShortExtras, 27, "too few extras"),
    (
        Refusal::LateTick,
        28,
        "a message would be due after the last tick",
    ),
    (
        Refusal::Full,
        29,
        "more than 128 messages would be in flight",
    ),
    (
        Refusal::ShortOutput,
        30,
        "the output is shorter than the records",
    ),
    (
        Refusal::BadJournal,
        31,
        "the journal's header is bad, or a record does not fit",
    ),
    (Refusal::JournalFull, 32, "the journal has no room"),
    (
        Refusal::TooFar,
        33,
        "the journal holds fewer calls than are to be undone",
    ),
    (Refusal::PlantCount, 40, "there are not 3 to 15 plants"),
    (Refusal::UnknownPlant, 41, "there is no such plant"),
    (Refusal::BadPlants, 42, "the words are no state of plants"),
    (Refusal::CountLimit, 43, "a count would pass 2^62"),
    (Refusal::NoNonce, 44, "a reboot needs a draw"),
    (
        Refusal::BadFlags,
        45,
        "the recovering flags are not one for each plant",
    ),
    (Refusal::ShortPicks, 46, "too few picks"),
    (Refusal::BadPick, 47, "a pick is out of its range"),
    (
        Refusal::FewHealthy,
        48,
        "fewer healthy plants than a quorum",
    ),
    (
        Refusal::BadSnapshot,
        60,
        "plants, logs, values or core of another shape",
    ),
    (Refusal::BadTracker, 61, "the tracker is of another shape"),
];

impl Refusal {
    /// Its number in the rules.
    pub fn number(self) -> u64 {
        self.row().1
    }

    /// The refusal of a number that the library returned.
    pub(crate) fn of(number: u64) -> Refusal {
        ALL.iter()
            .find(|row| row.1 == number)
            .unwrap_or_else(|| panic!("the library has no refusal {number}"))
            .0
    }

    /// What a call that returns 0 or a refusal's number answers.
    #[inline]
    pub(crate) fn check(number: u64) -> Result<(), Refusal> {
        match number {
            0 => Ok(()),
            number => Err(Refusal::of(number)),
        }
    }

    fn row(self) -> &'static (Refusal, u64, &'static str) {
        ALL.iter()
            .find(|row| row.0 == self)
            .expect("every refusal has a row")
    }
}

impl fmt::Display for Refusal {
    fn fmt(&self, f: &mut fmt::Formatter<'_>) -> fmt::Result {
        let (_, number, words) = self.row();
        write!(f, "{words} (refusal {number})")
    }
}

impl std::error::Error for Refusal {}

#[cfg(test)]
mod tests {
    use super::*;

    #[test]
    fn numbers_and_names_go_both_ways() {
        for (refusal, number, words) in ALL {
            assert_eq!(refusal.number(), number);
            assert_eq!(Refusal::of(number), refusal);
            assert_eq!(refusal.to_string(), format!("{words} (refusal {number})"));
        }
        assert_eq!(ALL.iter().filter(|row| row.1 == 0).count(), 0);
    }
}
