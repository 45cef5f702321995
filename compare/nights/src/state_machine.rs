//! Stand-in for the simulator's state_machine.rs, which the checkout lacks: an accumulator that keeps what it applied. It
//! is one module for both simulators, so that their messages are of one type.

use vsr_rs::StateMachine;

/// What an operation does to the value.
#[derive(Clone, Debug, PartialEq, Eq)]
pub enum OpKind {
    Add(i32),
    Set(i32),
}

impl OpKind {
    pub fn apply(&self, value: i64) -> i64 {
        match self {
            OpKind::Add(amount) => value.wrapping_add(i64::from(*amount)),
            OpKind::Set(amount) => i64::from(*amount),
        }
    }

    /// A word of its own for each operation: what the properties are lent as its body.
    pub fn word(&self) -> u64 {
        match self {
            OpKind::Add(amount) => u64::from(*amount as u32),
            OpKind::Set(amount) => 1 << 32 | u64::from(*amount as u32),
        }
    }
}

/// A client's operation, known by its id.
#[derive(Clone, Debug, PartialEq, Eq)]
pub struct Op {
    pub id: u64,
    pub kind: OpKind,
}

/// A value, and the operations that made it.
#[derive(Clone, Debug, Default)]
pub struct Accumulator {
    pub value: i64,
    pub applied: Vec<Op>,
}

impl StateMachine for Accumulator {
    type Input = Op;
    type Output = i64;

    fn apply(&mut self, op: Op) -> i64 {
        self.value = op.kind.apply(self.value);
        self.applied.push(op);
        self.value
    }
}
