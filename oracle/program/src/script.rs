//! The action script, version 1: its parts, reading them from bytes and writing them. Written from document 01 alone.
use crate::table::{Command, Rule};
use stateright::actor::ordered_reliable_link::MsgWrapper;
use stateright::actor::{Envelope, Id};

pub type Message = MsgWrapper<u32>;
pub type Env = Envelope<Message>;

#[derive(Clone, Debug, PartialEq)]
pub enum Action {
    Deliver(Env),
    Drop(Env),
    Timeout(u8, u8),
    Crash(u8),
    Recover(u8),
}

#[derive(Clone, Debug, Default, PartialEq)]
pub struct Script {
    pub kind: u8,
    pub tables: Vec<Vec<Rule>>,
    pub envelopes: Vec<Env>,
    pub actions: Vec<Action>,
}

pub const LONGEST: usize = 65_536;

pub fn envelope(src: u8, dst: u8, msg: Message) -> Env {
    Envelope { src: Id::from(src as usize), dst: Id::from(dst as usize), msg }
}

pub fn number_of(id: Id) -> u64 {
    usize::from(id) as u64
}

/// The place of the first bad record.
pub type Bad = usize;

struct Reader<'a> {
    bytes: &'a [u8],
    record: usize,
    bit: usize,
}

impl Reader<'_> {
    fn field(&mut self, width: usize) -> Result<u64, Bad> {
        if self.bit + width > 8 * self.bytes.len() {
            return Err(self.record);
        }
        let mut value = 0;
        for _ in 0..width {
            let byte = self.bytes[self.bit / 8];
            value = 2 * value + (byte >> (7 - self.bit % 8) & 1) as u64;
            self.bit += 1;
        }
        Ok(value)
    }

    fn flag(&mut self) -> Result<bool, Bad> {
        Ok(self.field(1)? == 1)
    }

    fn at_most(&mut self, width: usize, most: u64) -> Result<u64, Bad> {
        let value = self.field(width)?;
        self.holds(value <= most)?;
        Ok(value)
    }

    fn holds(&self, fact: bool) -> Result<(), Bad> {
        if fact {
            Ok(())
        } else {
            Err(self.record)
        }
    }

    /// Ends a record: zero bits up to the byte, and the next record begins.
    fn end(&mut self) -> Result<(), Bad> {
        let zeros = self.field((8 - self.bit % 8) % 8)?;
        self.holds(zeros == 0)?;
        self.record = self.bit / 8;
        Ok(())
    }

    fn header(&mut self) -> Result<(u8, usize), Bad> {
        let version = self.field(4)?;
        let kind = self.at_most(2, 2)?;
        let actors = self.at_most(4, 8)?;
        let zero = self.field(6)?;
        self.holds(version == 1 && actors > 0 && zero == 0)?;
        self.end()?;
        Ok((kind as u8, actors as usize))
    }

    fn table(&mut self) -> Result<Vec<Rule>, Bad> {
        let count = self.at_most(5, 16)?;
        self.end()?;
        (0..count).map(|_| self.rule()).collect()
    }

    fn rule(&mut self) -> Result<Rule, Bad> {
        let event = self.field(2)? as u8;
        let state = self.field(4)? as u8;
        let low = self.field(32)? as u32;
        let high = self.field(32)? as u32;
        let touched = self.flag()?;
        let next = self.field(4)? as u8;
        let count = self.at_most(3, 4)?;
        let mut commands = Vec::new();
        for _ in 0..count {
            commands.push(self.command()?);
        }
        self.end()?;
        Ok(Rule { event, state, low, high, touched, next, commands })
    }

    fn command(&mut self) -> Result<Command, Bad> {
        Ok(match self.field(2)? {
            0 => Command::Set(self.field(5)? as u8),
            1 => Command::Cancel(self.field(5)? as u8),
            2 => Command::Send {
                source: self.flag()?,
                dst: self.field(8)? as u8,
                echo: self.flag()?,
                payload: self.field(32)? as u32,
            },
            _ => Command::Save { echo: self.flag()?, value: self.field(32)? as u32 },
        })
    }

    fn envelope(&mut self) -> Result<Env, Bad> {
        let src = self.field(8)? as u8;
        let dst = self.field(8)? as u8;
        let ack = self.flag()?;
        let number = self.field(64)?;
        let msg = if ack { MsgWrapper::Ack(number) } else { MsgWrapper::Deliver(number, self.field(32)? as u32) };
        Ok(envelope(src, dst, msg))
    }

    /// None is the end.
    fn action(&mut self) -> Result<Option<Action>, Bad> {
        let action = match self.at_most(3, 5)? {
            0 => None,
            1 => Some(Action::Deliver(self.envelope()?)),
            2 => Some(Action::Drop(self.envelope()?)),
            3 => Some(Action::Timeout(self.field(8)? as u8, self.field(5)? as u8)),
            4 => Some(Action::Crash(self.field(8)? as u8)),
            _ => Some(Action::Recover(self.field(8)? as u8)),
        };
        self.end()?;
        Ok(action)
    }
}

pub fn read(bytes: &[u8]) -> Result<Script, Bad> {
    if bytes.len() > LONGEST {
        return Err(0);
    }
    let mut reader = Reader { bytes, record: 0, bit: 0 };
    let (kind, actors) = reader.header()?;
    let mut script = Script { kind, ..Script::default() };
    for _ in 0..actors {
        script.tables.push(reader.table()?);
    }
    let count = reader.at_most(8, 128)?;
    reader.end()?;
    for _ in 0..count {
        script.envelopes.push(reader.envelope()?);
        reader.end()?;
    }
    while let Some(action) = reader.action()? {
        script.actions.push(action);
    }
    reader.holds(reader.record == bytes.len())?;
    Ok(script)
}

#[derive(Default)]
struct Writer {
    bytes: Vec<u8>,
    bit: usize,
}

impl Writer {
    fn field(&mut self, width: usize, value: u64) {
        for place in (0..width).rev() {
            if self.bit == 8 * self.bytes.len() {
                self.bytes.push(0);
            }
            let last = self.bytes.len() - 1;
            self.bytes[last] |= ((value >> place & 1) as u8) << (7 - self.bit % 8);
            self.bit += 1;
        }
    }

    fn end(&mut self) {
        self.bit = 8 * self.bytes.len();
    }

    fn rule(&mut self, rule: &Rule) {
        self.field(2, rule.event as u64);
        self.field(4, rule.state as u64);
        self.field(32, rule.low as u64);
        self.field(32, rule.high as u64);
        self.field(1, rule.touched as u64);
        self.field(4, rule.next as u64);
        self.field(3, rule.commands.len() as u64);
        for command in &rule.commands {
            self.command(command);
        }
        self.end();
    }

    fn command(&mut self, command: &Command) {
        match *command {
            Command::Set(timer) => self.fields(&[(2, 0), (5, timer as u64)]),
            Command::Cancel(timer) => self.fields(&[(2, 1), (5, timer as u64)]),
            Command::Send { source, dst, echo, payload } => {
                self.fields(&[(2, 2), (1, source as u64), (8, dst as u64), (1, echo as u64), (32, payload as u64)])
            }
            Command::Save { echo, value } => self.fields(&[(2, 3), (1, echo as u64), (32, value as u64)]),
        }
    }

    fn fields(&mut self, fields: &[(usize, u64)]) {
        for &(width, value) in fields {
            self.field(width, value);
        }
    }

    fn envelope(&mut self, env: &Env) {
        self.fields(&[(8, number_of(env.src)), (8, number_of(env.dst))]);
        match env.msg {
            MsgWrapper::Deliver(number, payload) => self.fields(&[(1, 0), (64, number), (32, payload as u64)]),
            MsgWrapper::Ack(number) => self.fields(&[(1, 1), (64, number)]),
        }
    }

    fn action(&mut self, action: &Action) {
        match action {
            Action::Deliver(env) => {
                self.field(3, 1);
                self.envelope(env);
            }
            Action::Drop(env) => {
                self.field(3, 2);
                self.envelope(env);
            }
            Action::Timeout(id, timer) => self.fields(&[(3, 3), (8, *id as u64), (5, *timer as u64)]),
            Action::Crash(id) => self.fields(&[(3, 4), (8, *id as u64)]),
            Action::Recover(id) => self.fields(&[(3, 5), (8, *id as u64)]),
        }
        self.end();
    }
}

/// Everything before the actions.
fn opening(script: &Script) -> Writer {
    let mut writer = Writer::default();
    writer.fields(&[(4, 1), (2, script.kind as u64), (4, script.tables.len() as u64), (6, 0)]);
    for table in &script.tables {
        writer.field(5, table.len() as u64);
        writer.end();
        table.iter().for_each(|rule| writer.rule(rule));
    }
    writer.field(8, script.envelopes.len() as u64);
    for env in &script.envelopes {
        writer.envelope(env);
        writer.end();
    }
    writer
}

pub fn write(script: &Script) -> Vec<u8> {
    let mut writer = opening(script);
    script.actions.iter().for_each(|action| writer.action(action));
    writer.field(3, 0);
    writer.bytes
}

/// How many bytes the record of an action has.
pub fn size(action: &Action) -> usize {
    let mut writer = Writer::default();
    writer.action(action);
    writer.bytes.len()
}
