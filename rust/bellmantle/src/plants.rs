//! Which plants are up and which are cut off, and the choice of the core.

use crate::raw::plants::{CRASHES, N, PARTITIONED, REBOOTS, RESTARTS, STABLE, UP};
use crate::raw::{self, core, CORE_WORDS, MOST_PLANTS, PLANTS_WORDS, RECORD_WORDS};
use crate::{Fault, Origin, Refusal};

/// The state of 3 to 15 plants.
#[derive(Clone, Debug, PartialEq, Eq)]
pub struct Plants {
    words: [u64; PLANTS_WORDS],
}

/// What becomes of a message that is due.
#[derive(Clone, Copy, Debug, PartialEq, Eq)]
pub enum Verdict {
    /// It reaches its plant.
    Deliver,
    /// The receiver is down.
    ReceiverDown,
    /// The receiver, or a sending plant, is cut off.
    CutOff,
}

impl Verdict {
    /// By the number that tells it.
    #[inline]
    fn told(number: u64) -> Verdict {
        match number {
            0 => Verdict::Deliver,
            1 => Verdict::ReceiverDown,
            _ => Verdict::CutOff,
        }
    }
}

/// A chosen core: its ids, rising, and how many picks were used.
#[derive(Clone, Debug, PartialEq, Eq)]
#[allow(missing_docs)]
pub struct Core {
    pub ids: Vec<usize>,
    pub picks: usize,
}

impl Plants {
    /// Fresh plants: all n up. 40.
    pub fn new(n: usize) -> Result<Plants, Refusal> {
        let mut words = [0; PLANTS_WORDS];
        Refusal::check(raw::plants_new(n as u64, &mut words))?;
        Ok(Plants { words })
    }

    /// A state from words of the layout in include/bellmantle.h: the next call tests them (40, 42).
    pub fn from_words(words: [u64; PLANTS_WORDS]) -> Plants {
        Plants { words }
    }

    /// Its words.
    pub fn words(&self) -> &[u64; PLANTS_WORDS] {
        &self.words
    }

    /// Injects a fault at a tick: 40, 42, 41, 43, 44. A reboot uses the first draw and answers it as the plant's nonce.
    pub fn apply(
        &mut self,
        tick: u64,
        fault: Fault,
        draws: &[u64],
    ) -> Result<Option<u64>, Refusal> {
        let (number, id) = fault.words();
        let mut nonce = [0; 1];
        Refusal::check(raw::plants_apply(
            &mut self.words,
            tick,
            number,
            id,
            draws,
            &mut nonce,
        ))?;
        Ok(match fault {
            Fault::Reboot(_) => Some(nonce[0]),
            _ => None,
        })
    }

    /// What becomes of a message that is due at plant `to`: 40, 42, 41.
    pub fn verdict(&self, from: Origin, to: u64) -> Result<Verdict, Refusal> {
        let (sort, id) = from.words();
        let mut told = [0; 1];
        Refusal::check(raw::plants_verdict(&self.words, sort, id, to, &mut told))?;
        Ok(Verdict::told(told[0]))
    }

    /// What becomes of the messages of a take, by their records ([`Network::taken`](crate::Network::taken), or what
    /// [`Words::take_due`](crate::Words::take_due) writes): for each what [`verdict`](Plants::verdict) answers, in one call. 30 for
    /// words that are no whole number of records; then the first refusal among 24, 40, 42 and 41.
    ///
    /// ```
    /// use bellmantle::{Fault, Kind, Network, NetworkOptions, Origin, Plants, Verdict};
    ///
    /// let mut network = Network::new(NetworkOptions::perfect()).unwrap();
    /// let mut plants = Plants::new(3).unwrap();
    /// plants.apply(0, Fault::Crash(2), &[]).unwrap();
    /// for to in [1, 2] {
    ///     network.send(0, Origin::Replica(0), to, Kind::Prepare, "a body", &[], &[]).unwrap();
    /// }
    /// let due = network.take_due(0).unwrap();
    /// let verdicts = plants.verdicts(network.taken()).unwrap();
    /// assert_eq!(verdicts, [Verdict::Deliver, Verdict::ReceiverDown]);
    /// assert_eq!(due.len(), verdicts.len());
    /// ```
    pub fn verdicts(&self, taken: &[u64]) -> Result<Vec<Verdict>, Refusal> {
        Ok(self.verdicts_in(taken, &mut Vec::new())?.collect())
    }

    /// The same, told in words that the caller keeps from take to take.
    pub fn verdicts_in<'a>(
        &self,
        taken: &[u64],
        told: &'a mut Vec<u64>,
    ) -> Result<impl ExactSizeIterator<Item = Verdict> + 'a, Refusal> {
        told.clear();
        told.resize(taken.len() / RECORD_WORDS, 0);
        Refusal::check(raw::plants_verdicts(&self.words, taken, told))?;
        Ok(told.iter().map(|&number| Verdict::told(number)))
    }

    /// Chooses the core by the lent picks: 40, 42, 45, 48, 46, 47, 43.
    pub fn choose_core(
        &mut self,
        recovering: &[bool],
        picks: &[u64],
        full: bool,
    ) -> Result<Core, Refusal> {
        // More flags than there can be plants are as many too many with one of them.
        let mut flags = [0; MOST_PLANTS + 1];
        for (word, &flag) in flags.iter_mut().zip(recovering) {
            *word = u64::from(flag);
        }
        let flags = &flags[..recovering.len().min(MOST_PLANTS + 1)];
        let mut told = [0; CORE_WORDS];
        Refusal::check(raw::plants_choose_core(
            &mut self.words,
            flags,
            picks,
            u64::from(full),
            &mut told,
        ))?;
        let size = told[core::SIZE] as usize;
        Ok(Core {
            ids: told[core::IDS..core::IDS + size]
                .iter()
                .map(|&id| id as usize)
                .collect(),
            picks: told[core::PICKS] as usize,
        })
    }

    /// How many plants there are.
    pub fn count(&self) -> usize {
        self.words[N] as usize
    }

    /// Whether a plant runs.
    pub fn is_up(&self, id: usize) -> bool {
        id < self.count() && self.words[UP + id] == 1
    }

    /// Whether a plant is cut off.
    pub fn is_partitioned(&self, id: usize) -> bool {
        id < self.count() && self.words[PARTITIONED + id] == 1
    }

    /// The tick before which a plant's health must not change again.
    pub fn stable_until(&self, id: usize) -> u64 {
        assert!(id < self.count(), "there is no plant {id}");
        self.words[STABLE + id]
    }

    /// How often a plant went down, came up, and came up without memory.
    pub fn counts(&self) -> (u64, u64, u64) {
        (
            self.words[CRASHES],
            self.words[RESTARTS],
            self.words[REBOOTS],
        )
    }
}
