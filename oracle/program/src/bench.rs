//! The port beside the Rust on the same scripts, in one run: how many actions a second each performs. One long script of each
//! kind, with a small system (2 actors) and a large one (8 actors, about 100 entries). The Rust is timed on `next_state` alone.
use crate::drive::{model, rust_action, start};
use crate::ours::{measure, reads, replay, replay_into, Room};
use crate::report::{report, Options};
use crate::script::{envelope, size, write, Action, Env, Script, LONGEST};
use crate::table::{Command, Rule, MESSAGE, START};
use crate::view::entries;
use stateright::actor::ordered_reliable_link::MsgWrapper;
use stateright::Model;
use std::time::{Duration, Instant};

fn rule(event: u8, commands: Vec<Command>) -> Rule {
    Rule { event, state: 0, low: 0, high: u32::MAX, touched: true, next: 0, commands }
}

/// Each actor sends a message to the next one at its start, and every message that it takes back to its source.
fn table(actor: usize, actors: usize) -> Vec<Rule> {
    let first = Command::Send { source: false, dst: ((actor + 1) % actors) as u8, echo: false, payload: 7 };
    let back = Command::Send { source: true, dst: 0, echo: true, payload: 0 };
    vec![rule(START, vec![first]), rule(MESSAGE, vec![back])]
}

/// Envelopes to actors that are not there: they stay.
fn filler(actors: usize, count: usize) -> Vec<Env> {
    (0..count).map(|place| envelope((place % actors) as u8, (100 + place) as u8, MsgWrapper::Deliver(1, place as u32))).collect()
}

fn is_for_someone(env: &Env, actors: usize) -> bool {
    usize::from(env.dst) < actors
}

/// Delivers what is there, in turn, for as long as the script has room. The set of kind 1 keeps what is delivered, so that it is dropped.
fn script(kind: u8, actors: usize, others: usize) -> Script {
    let tables = (0..actors).map(|actor| table(actor, actors)).collect();
    let mut script = Script { kind, tables, envelopes: filler(actors, others), actions: vec![] };
    let mut run = start(&script).expect("it starts");
    let mut bytes = write(&script).len();
    let mut turn = 0;
    while bytes < LONGEST - 100 {
        let there: Vec<Env> = entries(&run.system.network).into_iter().map(|(_, env)| env).filter(|env| is_for_someone(env, actors)).collect();
        let env = there[turn % there.len()].clone();
        let mut actions = vec![Action::Deliver(env.clone())];
        if kind == 1 {
            actions.push(Action::Drop(env));
        }
        for action in actions {
            assert_eq!(run.step(&action).number, 0);
            bytes += size(&action);
            script.actions.push(action);
        }
        turn += 1;
    }
    script
}

/// The shortest time of some calls.
fn shortest(mut call: impl FnMut()) -> Duration {
    let mut best = Duration::MAX;
    for _ in 0..15 {
        let begin = Instant::now();
        call();
        best = best.min(begin.elapsed());
    }
    best
}

fn rate(actions: usize, time: Duration) -> f64 {
    actions as f64 / time.as_secs_f64()
}

/// What one script takes: the whole replay, its parts, and the Rust on the same actions.
struct Times {
    entries: usize,
    actions: usize,
    port: Duration,
    rust: Duration,
    reading: Duration,
    starting: Duration,
    measuring: Duration,
}

fn times(script: &Script, room: &mut Room) -> Times {
    let bytes = write(script);
    assert_eq!(replay(&bytes, room), report(&bytes, Options::default()), "both give the same output");
    let opening = write(&Script { actions: vec![], ..script.clone() });
    let (model, first) = (model(script), start(script).expect("it starts").system);
    let actions: Vec<_> = script.actions.iter().map(rust_action).collect();
    Times {
        entries: entries(&first.network).len(),
        actions: script.actions.len(),
        port: shortest(|| assert!(replay_into(&bytes, room) > 0)),
        rust: shortest(|| {
            let mut system = first.clone();
            for action in &actions {
                system = model.next_state(&system, action.clone()).expect("it is done");
            }
        }),
        reading: shortest(|| assert!(reads(&bytes))),
        starting: shortest(|| assert!(replay_into(&opening, room) > 0)),
        measuring: shortest(|| assert!(measure(&bytes) > 0)),
    }
}

/// A row of each table: the rates, and where the time of the port goes, in nanoseconds for an action.
fn rows(kind: u8, actors: usize, t: &Times) -> (String, String) {
    let each = |time: Duration| time.as_secs_f64() * 1e9 / t.actions as f64;
    let stepping = t.measuring.saturating_sub(t.reading).saturating_sub(t.starting);
    let place = format!("| {kind} | {actors} | {} |", t.entries);
    let rates = format!(
        "{place} {} | {:.0} | {:.0} | {:.1} |",
        t.actions,
        rate(t.actions, t.port),
        rate(t.actions, t.rust),
        t.rust.as_secs_f64() / t.port.as_secs_f64()
    );
    let parts = format!(
        "{place} {:.0} | {:.1} | {:.1} | {:.1} | {:.1} |",
        t.starting.as_secs_f64() * 1e9,
        each(t.port),
        each(t.reading),
        each(stepping),
        each(t.port.saturating_sub(t.measuring))
    );
    (rates, parts)
}

pub fn bench() {
    let mut room = Room::new();
    let mut parts = Vec::new();
    println!("| kind | actors | entries | actions | port, actions/s | Rust `next_state`, actions/s | port / Rust |");
    println!("|---|---|---|---|---|---|---|");
    for kind in 0..3 {
        for (actors, others) in [(2, 0), (8, 92)] {
            let (rates, part) = rows(kind, actors, &times(&script(kind, actors, others), &mut room));
            println!("{rates}");
            parts.push(part);
        }
    }
    println!("\n| kind | actors | entries | starting, ns | an action, ns | reading, ns | stepping, ns | writing, ns |");
    println!("|---|---|---|---|---|---|---|---|");
    parts.iter().for_each(|part| println!("{part}"));
}
