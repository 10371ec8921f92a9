//! Stand-in for the state of a system: the fields that model.rs fills, reads and changes, and no behaviour of their own.
use crate::actor::{Actor, Network, Timers};
use crate::util::HashableHashMap;
use std::sync::Arc;

pub struct ActorModelState<A: Actor, H = ()> {
    pub actor_states: Vec<Arc<A::State>>,
    pub history: H,
    pub timers_set: Vec<Timers<A::Timer>>,
    pub random_choices: Vec<RandomChoices<A::Random>>,
    pub network: Network<A::Msg>,
    pub crashed: Vec<bool>,
    pub actor_storages: Vec<Option<A::Storage>>,
}

// Not derived: a derived one would ask that the actor itself can be cloned.
impl<A: Actor, H: Clone> Clone for ActorModelState<A, H> {
    fn clone(&self) -> Self {
        ActorModelState {
            actor_states: self.actor_states.clone(),
            history: self.history.clone(),
            timers_set: self.timers_set.clone(),
            random_choices: self.random_choices.clone(),
            network: self.network.clone(),
            crashed: self.crashed.clone(),
            actor_storages: self.actor_storages.clone(),
        }
    }
}

/// Choices that an actor has open. The table makes none.
#[derive(Clone)]
pub struct RandomChoices<R> {
    pub map: HashableHashMap<String, Vec<R>>,
}

impl<R> Default for RandomChoices<R> {
    fn default() -> Self {
        RandomChoices { map: HashableHashMap::default() }
    }
}

impl<R> RandomChoices<R> {
    pub fn insert(&mut self, key: String, choices: Vec<R>) {
        self.map.insert(key, choices);
    }

    pub fn remove(&mut self, key: &str) {
        self.map.remove(key);
    }
}
