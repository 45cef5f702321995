//! Stand-in for the simulator's state_machine.rs, which the checkout lacks: the least that the other files
//! need to compile. Nothing compared depends on what it does.

use vsr_rs::StateMachine;

/// What an operation does to the value.
#[derive(Clone, Debug, PartialEq, Eq)]
pub enum OpKind {
    Add(i64),
}

impl OpKind {
    pub fn apply(&self, value: i64) -> i64 {
        match self {
            OpKind::Add(amount) => value.wrapping_add(*amount),
        }
    }
}

/// A client's operation, known by its id.
#[derive(Clone, Debug, PartialEq, Eq)]
pub struct Op {
    pub id: u64,
    pub kind: OpKind,
}

/// A value, and the operations that made it.
#[derive(Clone, Debug, Default)]
pub struct Accumulator {
    pub value: i64,
    pub applied: Vec<Op>,
}

impl StateMachine for Accumulator {
    type Input = Op;
    type Output = i64;

    fn apply(&mut self, op: Op) -> i64 {
        self.value = op.kind.apply(self.value);
        self.applied.push(op);
        self.value
    }
}
