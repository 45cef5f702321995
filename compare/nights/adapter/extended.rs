
// What follows is no part of the checkout: what the comparison needs of the private parts, laid behind its unchanged text.

impl Network {
    /// A delay above the minimum, for our network's extras.
    pub fn extra(&self, rng: &mut ChaCha8Rng) -> u64 {
        self.sample_delay(rng) - self.options.one_way_delay_min
    }

    /// The same network once more: the one way back that the Rust has.
    pub fn copy(&self) -> Network {
        Network {
            options: self.options.clone(),
            queue: self.queue.clone(),
            seq: self.seq,
            summary: self.summary.clone(),
        }
    }
}
