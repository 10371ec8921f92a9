//! The inner actor: document 01's rule table as an actor of the Rust, and which tables are sound.
use stateright::actor::{model_timeout, Actor, Id, Out};
use std::borrow::Cow;

#[derive(Clone, Debug, PartialEq)]
pub enum Command {
    Set(u8),
    Cancel(u8),
    Send { source: bool, dst: u8, echo: bool, payload: u32 },
    Save { echo: bool, value: u32 },
}

pub const START: u8 = 0;
pub const START_WITH: u8 = 1;
pub const MESSAGE: u8 = 2;
pub const TIMEOUT: u8 = 3;

#[derive(Clone, Debug, PartialEq)]
pub struct Rule {
    pub event: u8,
    pub state: u8,
    pub low: u32,
    pub high: u32,
    pub touched: bool,
    pub next: u8,
    pub commands: Vec<Command>,
}

impl Rule {
    fn matches(&self, event: u8, state: u8, value: u32) -> bool {
        self.event == event && self.state == state && self.low <= value && value <= self.high
    }

    fn sound(&self) -> bool {
        let start = self.event == START || self.event == START_WITH;
        self.low <= self.high
            && (!start || (self.state == 0 && self.touched))
            && (self.touched || self.next == self.state)
            && self.commands.iter().all(|command| command.sound(self.event))
    }
}

impl Command {
    fn sound(&self, event: u8) -> bool {
        match *self {
            Command::Set(timer) | Command::Cancel(timer) => timer <= 30,
            Command::Send { source, dst, echo, payload } => {
                (!source || (event == MESSAGE && dst == 0)) && (!echo || payload == 0)
            }
            Command::Save { echo, value } => !echo || value == 0,
        }
    }

    /// What the command says, given the event's value and the source of a message.
    fn run(&self, value: u32, from: Option<Id>, out: &mut Out<Table>) {
        match *self {
            Command::Set(timer) => out.set_timer(timer, model_timeout()),
            Command::Cancel(timer) => out.cancel_timer(timer),
            Command::Send { source, dst, echo, payload } => {
                let to = if source { from.expect("the source stands in message rules only") } else { Id::from(dst as usize) };
                out.send(to, if echo { value } else { payload });
            }
            Command::Save { echo, value: fixed } => out.save(if echo { value } else { fixed }),
        }
    }
}

pub fn sound(table: &[Rule]) -> bool {
    table.len() <= 16 && table.iter().all(Rule::sound)
}

#[derive(Clone)]
pub struct Table(pub Vec<Rule>);

impl Table {
    fn decide(&self, event: u8, state: u8, value: u32) -> Option<&Rule> {
        self.0.iter().find(|rule| rule.matches(event, state, value))
    }

    /// A message or a timeout: the state becomes owned exactly if the rule is touched.
    fn react(&self, event: u8, state: &mut Cow<u8>, value: u32, from: Option<Id>, out: &mut Out<Self>) {
        if let Some(rule) = self.decide(event, **state, value) {
            rule.commands.iter().for_each(|command| command.run(value, from, out));
            if rule.touched {
                *state.to_mut() = rule.next;
            }
        }
    }
}

impl Actor for Table {
    type Msg = u32;
    type Timer = u8;
    type State = u8;
    type Storage = u32;
    type Random = ();

    fn on_start(&self, _id: Id, storage: &Option<u32>, out: &mut Out<Self>) -> u8 {
        let event = if storage.is_some() { START_WITH } else { START };
        let value = storage.unwrap_or(0);
        match self.decide(event, 0, value) {
            None => 0,
            Some(rule) => {
                rule.commands.iter().for_each(|command| command.run(value, None, out));
                rule.next
            }
        }
    }

    fn on_msg(&self, _id: Id, state: &mut Cow<u8>, src: Id, msg: u32, out: &mut Out<Self>) {
        self.react(MESSAGE, state, msg, Some(src), out);
    }

    fn on_timeout(&self, _id: Id, state: &mut Cow<u8>, timer: &u8, out: &mut Out<Self>) {
        self.react(TIMEOUT, state, *timer as u32, None, out);
    }
}
