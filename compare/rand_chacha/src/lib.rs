//! Stands where the Rust has the crate rand_chacha: a generator that hands out the words that it is lent, in
//! their order, so that unchanged code draws what a comparison wants. What is made of a word is rand's own
//! code, unchanged.

use rand::{Error, RngCore, SeedableRng};

/// Hands out lent words. A draw without a word panics.
pub struct ChaCha8Rng {
    words: Vec<u64>,
    used: usize,
}

impl ChaCha8Rng {
    /// Lends these words, and forgets those of before.
    pub fn lend(&mut self, words: &[u64]) {
        self.words = words.to_vec();
        self.used = 0;
    }

    /// How many of the lent words were handed out.
    pub fn used(&self) -> usize {
        self.used
    }
}

impl SeedableRng for ChaCha8Rng {
    type Seed = [u8; 32];

    /// No word is lent yet; the seed plays no part.
    fn from_seed(_seed: [u8; 32]) -> ChaCha8Rng {
        ChaCha8Rng {
            words: Vec::new(),
            used: 0,
        }
    }
}

impl RngCore for ChaCha8Rng {
    fn next_u64(&mut self) -> u64 {
        let word = self.words[self.used];
        self.used += 1;
        word
    }

    fn next_u32(&mut self) -> u32 {
        panic!("only words of 64 bits are lent")
    }

    fn fill_bytes(&mut self, _bytes: &mut [u8]) {
        panic!("only words of 64 bits are lent")
    }

    fn try_fill_bytes(&mut self, _bytes: &mut [u8]) -> Result<(), Error> {
        panic!("only words of 64 bits are lent")
    }
}
