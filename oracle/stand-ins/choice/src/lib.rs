//! Stand-in for the crate `choice`: the names that actor.rs speaks of. A replay uses none of it.

/// One of two kinds of actor, or of their states.
#[derive(Clone, Debug, Eq, Hash, Ord, PartialEq, PartialOrd)]
pub enum Choice<A, B> {
    L(A),
    R(B),
}

/// No value at all.
#[derive(Clone, Copy, Debug, Eq, Hash, Ord, PartialEq, PartialOrd)]
pub enum Never {}

impl<A> Choice<A, Never> {
    pub fn new(value: A) -> Self {
        Choice::L(value)
    }

    pub fn get(&self) -> &A {
        match self {
            Choice::L(value) => value,
            Choice::R(never) => match *never {},
        }
    }
}
