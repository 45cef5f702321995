
// What follows is no part of the checkout: readers of the private fields, laid behind its unchanged text.

impl Network {
    /// The number of the last copy queued.
    pub fn seq(&self) -> u64 {
        self.seq
    }

    /// Messages in flight with their numbers, in delivery order.
    pub fn numbered(&self) -> impl Iterator<Item = (u64, &Envelope)> {
        self.queue.iter().map(|(key, envelope)| (key.1, envelope))
    }

    /// The same network once more.
    pub fn copy(&self) -> Network {
        Network {
            options: self.options.clone(),
            queue: self.queue.clone(),
            seq: self.seq,
            summary: self.summary.clone(),
        }
    }

    /// Every message in flight, for the one tick at which take_due overflows.
    pub fn take_all(&mut self) -> Vec<Envelope> {
        let due = std::mem::take(&mut self.queue);
        self.summary.delivered += due.len();
        due.into_values().collect()
    }
}
