//! The bodies of messages in flight, which the library knows by their handles.

/// A slab of bodies, each with the number of copies in flight.
pub(crate) struct Bodies<M> {
    slots: Vec<Option<(M, u32)>>,
    free: Vec<usize>,
}

impl<M: Clone> Bodies<M> {
    pub(crate) fn new() -> Bodies<M> {
        Bodies {
            slots: Vec::new(),
            free: Vec::new(),
        }
    }

    /// The handle that the next body gets.
    pub(crate) fn next(&self) -> u64 {
        match self.free.last() {
            Some(&place) => place as u64,
            None => self.slots.len() as u64,
        }
    }

    /// Keeps a body under the next handle, for so many copies.
    pub(crate) fn keep(&mut self, body: M, copies: u32) {
        match self.free.pop() {
            Some(place) => self.slots[place] = Some((body, copies)),
            None => self.slots.push(Some((body, copies))),
        }
    }

    /// The body of a copy that is delivered: the last copy takes it away.
    pub(crate) fn deliver(&mut self, handle: u64) -> M {
        let place = handle as usize;
        let (body, copies) = self.slots[place]
            .take()
            .expect("a handle in flight has a body");
        if copies > 1 {
            self.slots[place] = Some((body.clone(), copies - 1));
        } else {
            self.free.push(place);
        }
        body
    }

    /// The body of a copy that stays.
    pub(crate) fn get(&self, handle: u64) -> &M {
        let (body, _) = self.slots[handle as usize]
            .as_ref()
            .expect("a handle in flight has a body");
        body
    }
}
