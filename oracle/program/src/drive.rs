//! Runs a script through `init_states` and `next_state` of the Rust. The Rust answers 0, 1, 3 and 4; what it cannot
//! answer is decided here from document 01, before the call (2, 5, 10) or by looking at what it gave (6, 7, 8).
use crate::script::{number_of, Action, Script};
use crate::table::{sound, Table};
use crate::view::{entries, fresh, live, stored, timer, timers, Link, Part, System};
use stateright::actor::{ActorModel, ActorModelAction, Id, Network};
use stateright::Model;
use std::cell::Cell;
use std::panic::{catch_unwind, set_hook, take_hook, AssertUnwindSafe};

const MOST_ENTRIES: usize = 128;
const MOST_COPIES: usize = 65_535;
const MOST_PENDING: u64 = 32;

#[derive(Clone, Copy, Debug, PartialEq)]
pub enum By {
    Rust,
    Ours,
}

#[derive(Clone, Copy, Debug, PartialEq)]
pub struct Answer {
    pub number: u8,
    pub by: By,
}

fn rust(number: u8) -> Answer {
    Answer { number, by: By::Rust }
}

fn ours(number: u8) -> Answer {
    Answer { number, by: By::Ours }
}

thread_local!(static CAUGHT: Cell<bool> = const { Cell::new(false) });

/// Panics of the Rust are answers, so their text stays off the error output. Any other panic is told as usual.
pub fn quiet() {
    let usual = take_hook();
    set_hook(Box::new(move |info| {
        if !CAUGHT.get() {
            usual(info)
        }
    }));
}

pub fn caught<T>(call: impl FnOnce() -> T) -> Result<T, String> {
    CAUGHT.set(true);
    let result = catch_unwind(AssertUnwindSafe(call));
    CAUGHT.set(false);
    result.map_err(|panic| match panic.downcast::<String>() {
        Ok(text) => *text,
        Err(panic) => panic.downcast::<&str>().map_or(String::new(), |text| text.to_string()),
    })
}

/// A panic of `on_deliver` or `on_drop` is 3, of the assertion in Recover 4. No other is expected.
fn panic_answer(text: &str) -> Answer {
    let absent = ["envelope not found", "flow not found", "message not found"];
    if absent.iter().any(|start| text.starts_with(start)) {
        rust(3)
    } else if text.starts_with("assertion failed: last_sys_state.crashed") {
        rust(4)
    } else {
        panic!("a panic of the Rust that document 01 does not know: {text}")
    }
}

pub struct Run {
    model: ActorModel<Link>,
    pub system: System,
}

fn network(script: &Script) -> Network<crate::script::Message> {
    let envelopes = script.envelopes.clone();
    match script.kind {
        0 => Network::new_ordered(envelopes),
        1 => Network::new_unordered_duplicating(envelopes),
        _ => Network::new_unordered_nonduplicating(envelopes),
    }
}

pub fn model(script: &Script) -> ActorModel<Link> {
    let links = script.tables.iter().map(|table| Link::with_default_timeout(Table(table.clone())));
    ActorModel::new((), ()).actors(links).init_network(network(script))
}

fn known_start(script: &Script) -> bool {
    let actors = script.tables.len();
    script.tables.iter().all(|table| sound(table)) && script.envelopes.iter().all(|env| usize::from(env.src) < actors)
}

/// A start rule has at most 4 sends and a start at most 128 envelopes, so that 6, 7, or 8 for the given envelopes
/// cannot happen there.
pub fn start(script: &Script) -> Result<Run, Answer> {
    if !known_start(script) {
        return Err(ours(10));
    }
    let model = model(script);
    let system = model.init_states().pop().expect("one initial state");
    if too_full(&system) {
        return Err(ours(8));
    }
    Ok(Run { model, system })
}

/// Nothing leaves the network while commands run, so a send that needs too much shows at the end.
fn too_full(system: &System) -> bool {
    let entries = entries(&system.network);
    entries.len() > MOST_ENTRIES || entries.iter().any(|(count, _)| *count > MOST_COPIES)
}

/// 6 or 7 for the inner sends of a step, told by how far the next number went. Each send is tested for 6 first.
fn sends_answer(before: &Part, after: &Part) -> Option<Answer> {
    let sends = after.next.wrapping_sub(before.next);
    let numbers = u64::MAX - before.next;
    let places = MOST_PENDING - before.pending.len() as u64;
    if sends > numbers && numbers <= places {
        Some(ours(6))
    } else if sends > places {
        Some(ours(7))
    } else {
        None
    }
}

impl Run {
    pub fn actors(&self) -> usize {
        self.system.crashed.len()
    }

    pub fn step(&mut self, action: &Action) -> Answer {
        if let Some(answer) = self.before(action) {
            return answer;
        }
        match caught(|| self.model.next_state(&self.system, rust_action(action))) {
            Err(text) => panic_answer(&text),
            Ok(None) => rust(1),
            Ok(Some(next)) => self.after(action, &next).unwrap_or_else(|| {
                self.system = next;
                rust(0)
            }),
        }
    }

    /// 2 and 5. Ignored for the destination comes before 3, 4 and 5, but no Timeout is ignored for that.
    fn before(&self, action: &Action) -> Option<Answer> {
        let known = |id: u64| id < self.actors() as u64;
        match action {
            Action::Deliver(env) | Action::Drop(env) if !known(number_of(env.src)) => Some(ours(2)),
            Action::Timeout(id, _) | Action::Crash(id) | Action::Recover(id) if !known(*id as u64) => Some(ours(2)),
            Action::Timeout(id, timer) if !timers(&self.system, *id as usize).contains(timer) => Some(ours(5)),
            _ => None,
        }
    }

    /// 6 and 7 for the actor that acted, then 8.
    fn after(&self, action: &Action, next: &System) -> Option<Answer> {
        let sent = match action {
            Action::Deliver(env) => {
                let id = usize::from(env.dst);
                sends_answer(&live(&self.system, id), &live(next, id))
            }
            Action::Timeout(id, _) => sends_answer(&live(&self.system, *id as usize), &live(next, *id as usize)),
            Action::Recover(id) => {
                let from = stored(&self.system, *id as usize).unwrap_or_else(fresh);
                sends_answer(&from, &live(next, *id as usize))
            }
            Action::Drop(_) | Action::Crash(_) => None,
        };
        sent.or_else(|| too_full(next).then(|| ours(8)))
    }
}

type RustAction = <ActorModel<Link> as Model>::Action;

pub fn rust_action(action: &Action) -> RustAction {
    let id = |number: &u8| Id::from(*number as usize);
    match action {
        Action::Deliver(env) => ActorModelAction::Deliver { src: env.src, dst: env.dst, msg: env.msg.clone() },
        Action::Drop(env) => ActorModelAction::Drop(env.clone()),
        Action::Timeout(actor, number) => ActorModelAction::Timeout(id(actor), timer(*number)),
        Action::Crash(actor) => ActorModelAction::Crash(id(actor)),
        Action::Recover(actor) => ActorModelAction::Recover(id(actor)),
    }
}
