//! Stand-in for the checker: the names that the supplied files take from it. A replay runs none of it.
use crate::actor::{Envelope, Id};
use crate::util::{HashableHashMap, HashableHashSet};
use std::collections::{BTreeMap, VecDeque};
use std::marker::PhantomData;

/// Holds the model, and builds nothing.
pub struct CheckerBuilder<M> {
    /// The model as given.
    pub model: M,
}

impl<M> CheckerBuilder<M> {
    pub(crate) fn new(model: M) -> Self {
        CheckerBuilder { model }
    }
}

/// States in turn, each with the action that was taken there.
#[derive(Clone)]
pub struct Path<State, Action>(Vec<(State, Option<Action>)>);

impl<State, Action> Path<State, Action> {
    /// The state at the end.
    pub fn last_state(&self) -> &State {
        &self.0[self.0.len() - 1].0
    }

    /// The states and actions themselves.
    pub fn into_vec(self) -> Vec<(State, Option<Action>)> {
        self.0
    }
}

/// Symmetry is left out of the port, so nothing is ever rewritten.
pub struct RewritePlan<R, S>(PhantomData<(R, S)>);

/// Asked for by network.rs and timers.rs.
pub trait Rewrite<R> {
    /// Never called.
    fn rewrite<S>(&self, plan: &RewritePlan<R, S>) -> Self;
}

macro_rules! never_rewritten {
    ($([$($names:ident),*] $type:ty;)*) => {$(
        impl<$($names),*> Rewrite<Id> for $type {
            fn rewrite<S>(&self, _plan: &RewritePlan<Id, S>) -> Self {
                unreachable!("stand-in: nothing is rewritten in a replay")
            }
        }
    )*};
}

never_rewritten! {
    [M] HashableHashSet<Envelope<M>>;
    [M] HashableHashMap<Envelope<M>, usize>;
    [M] Option<Envelope<M>>;
    [M] BTreeMap<(Id, Id), VecDeque<M>>;
}
