//! What the Rust does by itself where the port differs on purpose, or where no script can look: its listing, its names,
//! and steps that the port refuses before the Rust would be asked.
use crate::drive::{caught, model, rust_action};
use crate::script::{envelope, Action, Env, Message, Script};
use crate::view::{timers, System};
use stateright::actor::Network;
use stateright::Model;

fn listed(network: &Network<Message>) -> String {
    let most = 1000;
    let count = network.iter_all().take(most).count();
    let listed = if count == most { "without end".to_string() } else { format!("{count}") };
    format!("len {}, listed {listed}", network.len())
}

fn one() -> Env {
    envelope(0, 0, Message::Deliver(1, 7))
}

/// What the Rust alone makes of an action in a system of one actor with an empty table.
fn alone(action: Action) -> String {
    let model = model(&Script {
        kind: 2,
        tables: vec![Vec::new()],
        envelopes: vec![envelope(9, 0, Message::Ack(1))],
        actions: Vec::new(),
    });
    let system: System = model.init_states().pop().expect("one initial state");
    match caught(|| model.next_state(&system, rust_action(&action))) {
        Err(text) => format!("panics: {text}"),
        Ok(None) => "ignored".to_string(),
        Ok(Some(next)) => format!("accepted, len {}, timers {:?}", next.network.len(), timers(&next, 0)),
    }
}

pub fn faults() -> String {
    let names = Network::<Message>::names();
    let kinds = names.iter().chain(["Ordered", "ordered ", ""].iter());
    let known: Vec<String> = kinds.map(|name| format!("{name:?} {}", name.parse::<Network<Message>>().is_ok())).collect();
    let lines = [
        format!("kind 2, two copies: {}", listed(&Network::new_unordered_nonduplicating([one(), one()]))),
        format!("kind 2, one copy: {}", listed(&Network::new_unordered_nonduplicating([one()]))),
        format!("kind 1, sent twice: {}", listed(&Network::new_unordered_duplicating([one(), one()]))),
        format!("kind 0, one message: {}", listed(&Network::new_ordered([one()]))),
        format!("names known: {}", known.join(", ")),
        format!("timeout of a timer that is not set: {}", alone(Action::Timeout(0, 3))),
        format!("crash of an unknown actor: {}", alone(Action::Crash(1))),
        format!("deliver of an unknown source: {}", alone(Action::Deliver(envelope(9, 0, Message::Ack(1))))),
        format!("drop of an absent envelope: {}", alone(Action::Drop(one()))),
        format!("recover of a live actor: {}", alone(Action::Recover(0))),
    ];
    lines.map(|line| line + "\n").concat()
}
