//! The bytes that the port would dump for a system of the Rust: the same facts in the port's fixed widths.
use crate::drive::Run;
use crate::script::{number_of, Env};
use crate::view::{entries, last, live, state, stored, timers, Link, Part, System};
use stateright::actor::ordered_reliable_link::MsgWrapper;
use stateright::actor::{Actor, Network};
use std::sync::Arc;

fn put(bytes: &mut Vec<u8>, width: usize, number: u64) {
    bytes.extend_from_slice(&number.to_be_bytes()[8 - width..]);
}

fn put_envelope(bytes: &mut Vec<u8>, env: &Env) {
    put(bytes, 1, number_of(env.src));
    put(bytes, 1, number_of(env.dst));
    let (tag, number, payload) = match env.msg {
        MsgWrapper::Deliver(number, payload) => (0, number, payload),
        MsgWrapper::Ack(number) => (1, number, 0),
    };
    put(bytes, 1, tag);
    put(bytes, 8, number);
    put(bytes, 4, payload as u64);
}

fn put_network(bytes: &mut Vec<u8>, system: &System) {
    put(bytes, 1, match system.network {
        Network::Ordered(_) => 0,
        Network::UnorderedDuplicating(..) => 1,
        Network::UnorderedNonDuplicating(_) => 2,
    });
    let list = entries(&system.network);
    put(bytes, 8, list.len() as u64);
    for (count, env) in &list {
        put_envelope(bytes, env);
        put(bytes, 2, *count as u64);
    }
    bytes.resize(bytes.len() + 17 * (128 - list.len()), 0);
    let end = bytes.len() + 16;
    if let Some(env) = last(&system.network) {
        put(bytes, 1, 1);
        put_envelope(bytes, env);
    }
    bytes.resize(end, 0);
}

fn put_part(bytes: &mut Vec<u8>, part: &Part) {
    put(bytes, 8, part.next);
    put(bytes, 8, part.pending.len() as u64);
    for (number, dst, payload) in &part.pending {
        put(bytes, 8, *number);
        put(bytes, 1, *dst);
        put(bytes, 4, *payload);
    }
    bytes.resize(bytes.len() + 13 * (32 - part.pending.len()), 0);
    let mut taken = [0; 8];
    part.taken.iter().for_each(|(source, number)| taken[*source as usize] = *number);
    let used = taken.iter().rposition(|number| *number > 0).map_or(0, |place| place + 1);
    put(bytes, 8, used as u64);
    taken.iter().for_each(|number| put(bytes, 8, *number));
    put(bytes, 1, part.inner.is_some() as u64);
    put(bytes, 4, part.inner.unwrap_or(0));
}

fn actor_bytes(system: &System, actor: usize) -> Vec<u8> {
    let mut bytes = Vec::with_capacity(ACTOR);
    put(&mut bytes, 1, system.crashed[actor] as u64);
    put(&mut bytes, 4, timers(system, actor).iter().map(|timer| 1 << timer).sum());
    put_part(&mut bytes, &live(system, actor));
    put(&mut bytes, 1, state(system, actor));
    match stored(system, actor) {
        None => bytes.resize(ACTOR, 0),
        Some(part) => {
            put(&mut bytes, 1, 1);
            put_part(&mut bytes, &part);
        }
    }
    bytes
}

/// The bytes of an actor.
const ACTOR: usize = 1_025;

/// What an actor's bytes hang on. Most steps leave most actors as they were.
struct Known {
    state: Arc<<Link as Actor>::State>,
    storage: Option<<Link as Actor>::Storage>,
    crashed: bool,
    timers: Vec<u8>,
    bytes: Vec<u8>,
}

#[derive(Default)]
pub struct Image {
    actors: Vec<Known>,
    bytes: Vec<u8>,
}

impl Image {
    fn know(&mut self, system: &System, actor: usize) -> &[u8] {
        let set = timers(system, actor);
        let is_same = self.actors.get(actor).is_some_and(|known| {
            Arc::ptr_eq(&known.state, &system.actor_states[actor])
                && known.storage == system.actor_storages[actor]
                && known.crashed == system.crashed[actor]
                && known.timers == set
        });
        if !is_same {
            let known = Known {
                state: system.actor_states[actor].clone(),
                storage: system.actor_storages[actor].clone(),
                crashed: system.crashed[actor],
                timers: set,
                bytes: actor_bytes(system, actor),
            };
            match self.actors.get_mut(actor) {
                Some(old) => *old = known,
                None => self.actors.push(known),
            }
        }
        &self.actors[actor].bytes
    }

    /// A refused start leaves the blank system: all zero.
    pub fn of(&mut self, run: Option<&Run>) -> &[u8] {
        let mut bytes = std::mem::take(&mut self.bytes);
        bytes.clear();
        if let Some(run) = run {
            let system = &run.system;
            put(&mut bytes, 8, system.crashed.len() as u64);
            put_network(&mut bytes, system);
            for actor in 0..system.crashed.len() {
                bytes.extend_from_slice(self.know(system, actor));
            }
        }
        bytes.resize(10_409, 0);
        self.bytes = bytes;
        &self.bytes
    }
}
