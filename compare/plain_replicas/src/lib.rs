//! Stand-in for the Rust's protocol library, for its properties alone: a replica whose fields can be set. The
//! types that the properties compare are as the protocol library has them.

use std::fmt::Debug;

pub type ClientID = usize;
pub type RequestNumber = usize;
pub type ViewNumber = usize;

pub trait StateMachine {
    type Input: Clone + Debug;
    type Output: Clone + Debug;

    fn apply(&mut self, input: Self::Input) -> Self::Output;
}

#[derive(Clone, Debug, PartialEq, Eq)]
pub struct LogEntry<Op> {
    pub client_id: ClientID,
    pub request_number: RequestNumber,
    pub op: Op,
}

#[derive(Clone, Debug, PartialEq, Eq)]
pub struct Reply<Output> {
    pub view_number: ViewNumber,
    pub client_id: ClientID,
    pub request_number: RequestNumber,
    pub result: Output,
}

pub struct Replica<SM: StateMachine> {
    pub recovering: bool,
    pub commit: usize,
    pub op: usize,
    pub entries: Vec<LogEntry<SM::Input>>,
    pub machine: SM,
}

impl<SM: StateMachine> Replica<SM> {
    pub fn is_recovering(&self) -> bool {
        self.recovering
    }

    pub fn commit_number(&self) -> usize {
        self.commit
    }

    pub fn op_number(&self) -> usize {
        self.op
    }

    pub fn log(&self) -> &[LogEntry<SM::Input>] {
        &self.entries
    }

    pub fn state_machine(&self) -> &SM {
        &self.machine
    }
}
