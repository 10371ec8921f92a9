//! What a system of the Rust holds, in plain values and in one order, and as lines of text.
use crate::script::{number_of, Env, Message};
use crate::table::Table;
use stateright::actor::ordered_reliable_link::{ActorWrapper, MsgWrapper, TimerWrapper};
use stateright::actor::{Actor, ActorModelState, Envelope, Network};
use std::fmt::Debug;
use std::sync::Arc;

pub type Link = ActorWrapper<Table>;
pub type System = ActorModelState<Link, ()>;

pub const NETWORK: u8 = 31;

/// A durable part: live or stored.
pub struct Part {
    pub next: u64,
    pub pending: Vec<(u64, u64, u64)>,
    pub taken: Vec<(u64, u64)>,
    pub inner: Option<u64>,
}

/// What stands behind a field's name in the text of a derived `Debug`. The fields of the link are private, so
/// their text is the only way to them.
fn behind<'a>(text: &'a str, name: &str) -> &'a str {
    let start = text.find(name).expect("the field is there") + name.len();
    &text[start..]
}

fn numbers(text: &str) -> Vec<u64> {
    let digits = text.split(|c: char| !c.is_ascii_digit()).filter(|run| !run.is_empty());
    digits.map(|run| run.parse().expect("a number of 64 bits")).collect()
}

fn first(text: &str) -> u64 {
    numbers(text)[0]
}

/// The numbers between the braces of a map.
fn map(text: &str, name: &str) -> Vec<u64> {
    let rest = behind(text, name);
    numbers(&rest[..rest.find('}').expect("the map ends")])
}

fn part(value: &impl Debug) -> Part {
    let text = format!("{value:?}");
    let mut pending: Vec<_> = map(&text, "msgs_pending_ack: {").chunks(3).map(|c| (c[0], c[1], c[2])).collect();
    let mut taken: Vec<_> = map(&text, "last_delivered_seqs: {").chunks(2).map(|c| (c[0], c[1])).collect();
    pending.sort();
    taken.sort();
    Part {
        next: first(behind(&text, "next_send_seq: ")),
        pending,
        taken,
        inner: numbers(behind(&text, "wrapped_storage: ")).first().copied(),
    }
}

pub fn fresh() -> Part {
    Part { next: 1, pending: vec![], taken: vec![], inner: None }
}

pub fn live(system: &System, actor: usize) -> Part {
    part(&system.actor_states[actor])
}

pub fn stored(system: &System, actor: usize) -> Option<Part> {
    system.actor_storages[actor].as_ref().map(part)
}

pub fn state(system: &System, actor: usize) -> u64 {
    first(behind(&format!("{:?}", system.actor_states[actor]), "wrapped_state: "))
}

pub fn timers(system: &System, actor: usize) -> Vec<u8> {
    let mut set: Vec<u8> = system.timers_set[actor].iter().map(timer_number).collect();
    set.sort();
    set
}

fn timer_number(timer: &TimerWrapper<u8>) -> u8 {
    match timer {
        TimerWrapper::Network => NETWORK,
        TimerWrapper::User(number) => *number,
    }
}

pub fn timer(number: u8) -> TimerWrapper<u8> {
    if number == NETWORK {
        TimerWrapper::Network
    } else {
        TimerWrapper::User(number)
    }
}

/// Entries with their counts: flow by flow on kind 0, in envelope order on kinds 1 and 2.
pub fn entries(network: &Network<Message>) -> Vec<(usize, Env)> {
    let mut list: Vec<(usize, Env)> = match network {
        Network::UnorderedDuplicating(set, _) => set.iter().map(|env| (1, env.clone())).collect(),
        Network::UnorderedNonDuplicating(counts) => counts.iter().map(|(env, count)| (*count, env.clone())).collect(),
        Network::Ordered(flows) => {
            let flow = |(&(src, dst), messages): (&_, &std::collections::VecDeque<Message>)| {
                messages.iter().map(|msg| (1, Envelope { src, dst, msg: msg.clone() })).collect::<Vec<_>>()
            };
            return flows.iter().flat_map(flow).collect();
        }
    };
    list.sort_by(|x, y| x.1.cmp(&y.1));
    list
}

pub fn last(network: &Network<Message>) -> Option<&Env> {
    match network {
        Network::UnorderedDuplicating(_, last) => last.as_ref(),
        _ => None,
    }
}

pub fn envelope_text(env: &Env) -> String {
    let (src, dst) = (number_of(env.src), number_of(env.dst));
    match env.msg {
        MsgWrapper::Deliver(number, payload) => format!("{src} {dst} deliver {number} {payload}"),
        MsgWrapper::Ack(number) => format!("{src} {dst} ack {number}"),
    }
}

fn part_lines(lines: &mut Vec<String>, name: &str, part: &Part) {
    lines.push(format!("{name} next {}", part.next));
    lines.extend(part.pending.iter().map(|(number, dst, payload)| format!("{name} pending {number} {dst} {payload}")));
    lines.extend(part.taken.iter().map(|(source, number)| format!("{name} taken {source} {number}")));
    lines.push(match part.inner {
        None => format!("{name} inner none"),
        Some(value) => format!("{name} inner {value}"),
    });
}

fn actor_lines(lines: &mut Vec<String>, system: &System, actor: usize) {
    lines.push(format!("actor {actor} {}", if system.crashed[actor] { "crashed" } else { "live" }));
    let set: String = timers(system, actor).iter().map(|timer| format!(" {timer}")).collect();
    lines.push(format!("actor {actor} timers{set}"));
    lines.push(format!("actor {actor} state {}", state(system, actor)));
    part_lines(lines, &format!("actor {actor}"), &live(system, actor));
    match stored(system, actor) {
        None => lines.push(format!("actor {actor} stored none")),
        Some(part) => part_lines(lines, &format!("actor {actor} stored"), &part),
    }
}

/// What the facts of an actor hang on, and their text. Most steps leave most actors as they were.
struct Told {
    state: Arc<<Link as Actor>::State>,
    storage: Option<<Link as Actor>::Storage>,
    crashed: bool,
    timers: Vec<u8>,
    text: String,
}

/// The whole system, a fact a line, two spaces in.
#[derive(Default)]
pub struct Facts {
    actors: Vec<Told>,
}

fn indented(lines: Vec<String>) -> String {
    lines.iter().map(|line| format!("  {line}\n")).collect()
}

fn told(system: &System, actor: usize) -> Told {
    let mut lines = Vec::new();
    actor_lines(&mut lines, system, actor);
    Told {
        state: system.actor_states[actor].clone(),
        storage: system.actor_storages[actor].clone(),
        crashed: system.crashed[actor],
        timers: timers(system, actor),
        text: indented(lines),
    }
}

impl Facts {
    fn is_same(&self, system: &System, actor: usize) -> bool {
        self.actors.get(actor).is_some_and(|told| {
            Arc::ptr_eq(&told.state, &system.actor_states[actor])
                && told.storage == system.actor_storages[actor]
                && told.crashed == system.crashed[actor]
                && told.timers == timers(system, actor)
        })
    }

    pub fn tell(&mut self, system: &System, text: &mut String) {
        let mut lines = Vec::new();
        for (count, env) in entries(&system.network) {
            lines.push(format!("entry {count} {}", envelope_text(&env)));
        }
        lines.push(match last(&system.network) {
            None => "last none".to_string(),
            Some(env) => format!("last {}", envelope_text(env)),
        });
        *text += &indented(lines);
        for actor in 0..system.crashed.len() {
            if !self.is_same(system, actor) {
                match self.actors.get_mut(actor) {
                    Some(old) => *old = told(system, actor),
                    None => self.actors.push(told(system, actor)),
                }
            }
            *text += &self.actors[actor].text;
        }
    }
}
