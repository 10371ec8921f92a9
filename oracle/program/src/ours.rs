//! The port itself, linked in: its output for a script, and the whole system after each answer, in the oracle's words.
//! The archive is made of the crate `test_states`, which is for this alone.
use crate::generate::{generate, profile};
use crate::drive::Run;
use crate::image::Image;
use crate::report::{report, report_with, Options};

// A slice crosses as its address and its length, in Rust and in the archive alike.
#[allow(improper_ctypes)]
extern "C" {
    fn states_replay(script: &[u8], out: &mut [u8]) -> usize;
    fn states_all(script: &[u8], out: &mut [u8]) -> usize;
    fn states_reads(script: &[u8]) -> bool;
}

/// The bytes of one dumped system, and of an entry in it.
const SIZE: usize = 10_409;
const ENTRY: usize = 17;

/// The most actions after each of which the whole system is compared.
const MOST: usize = 600;

/// Room for the output of any script, and for that many systems.
pub struct Room {
    output: Vec<u8>,
    states: Vec<u8>,
}

impl Room {
    pub fn new() -> Room {
        Room { output: vec![0; 160 + 23 * 65_536], states: vec![0; (MOST + 1) * SIZE] }
    }
}

/// The output of the port.
pub fn replay(script: &[u8], room: &mut Room) -> String {
    let size = unsafe { states_replay(script, &mut room.output) };
    String::from_utf8_lossy(&room.output[..size]).into_owned()
}

/// How long the output is; it stands in the room.
pub fn replay_into(script: &[u8], room: &mut Room) -> usize {
    unsafe { states_replay(script, &mut room.output) }
}

/// How long the output would be: all but the writing is done.
pub fn measure(script: &[u8]) -> usize {
    unsafe { states_replay(script, &mut []) }
}

/// Whether the port finds the layout good.
pub fn reads(script: &[u8]) -> bool {
    unsafe { states_reads(script) }
}

/// Reads a dump from the front: numbers of fixed width, the high byte first.
struct Dump<'a> {
    bytes: &'a [u8],
}

impl Dump<'_> {
    fn number(&mut self, width: usize) -> u64 {
        let (front, rest) = self.bytes.split_at(width);
        self.bytes = rest;
        front.iter().fold(0, |sum, byte| sum << 8 | u64::from(*byte))
    }

    fn envelope(&mut self) -> String {
        let (src, dst, tag, number, payload) = (self.number(1), self.number(1), self.number(1), self.number(8), self.number(4));
        match tag {
            0 => format!("{src} {dst} deliver {number} {payload}"),
            _ => format!("{src} {dst} ack {number}"),
        }
    }

    fn network(&mut self, lines: &mut Vec<String>) {
        self.number(1);
        let used = self.number(8) as usize;
        for _ in 0..used {
            let envelope = self.envelope();
            let count = self.number(2);
            lines.push(format!("entry {count} {envelope}"));
        }
        self.bytes = &self.bytes[(128 - used) * ENTRY..];
        let tag = self.number(1);
        let envelope = self.envelope();
        lines.push(if tag == 0 { "last none".to_string() } else { format!("last {envelope}") });
    }

    /// The lines of a durable part.
    fn part(&mut self, name: &str) -> Vec<String> {
        let mut lines = vec![format!("{name} next {}", self.number(8))];
        let used = self.number(8);
        for place in 0..32 {
            let (number, dst, payload) = (self.number(8), self.number(1), self.number(4));
            if place < used {
                lines.push(format!("{name} pending {number} {dst} {payload}"));
            }
        }
        let used = self.number(8);
        for source in 0..8 {
            let number = self.number(8);
            if source < used && number > 0 {
                lines.push(format!("{name} taken {source} {number}"));
            }
        }
        let (tag, value) = (self.number(1), self.number(4));
        lines.push(if tag == 0 { format!("{name} inner none") } else { format!("{name} inner {value}") });
        lines
    }

    fn actor(&mut self, actor: u64) -> Vec<String> {
        let crashed = self.number(1) == 1;
        let timers = self.number(4);
        let live = self.part(&format!("actor {actor}"));
        let state = self.number(1);
        let some = self.number(1) == 1;
        let stored = self.part(&format!("actor {actor} stored"));
        let set: String = (0..32).filter(|timer| timers >> timer & 1 == 1).map(|timer| format!(" {timer}")).collect();
        let mut lines = vec![
            format!("actor {actor} {}", if crashed { "crashed" } else { "live" }),
            format!("actor {actor} timers{set}"),
            format!("actor {actor} state {state}"),
        ];
        lines.extend(live);
        lines.extend(if some { stored } else { vec![format!("actor {actor} stored none")] });
        lines
    }

}

/// The facts of the system that was dumped before, by their bytes: most steps leave most actors as they were.
#[derive(Default)]
struct Facts {
    actors: Vec<(Vec<u8>, String)>,
}

/// The bytes of the count, of the network and of an actor.
const COUNT: usize = 8;
const NETWORK: usize = 2_201;
const ACTOR: usize = 1_025;

fn indented(lines: Vec<String>) -> String {
    lines.iter().map(|line| format!("  {line}\n")).collect()
}

impl Facts {
    fn actor(&mut self, actor: usize, bytes: &[u8]) -> &str {
        if self.actors.len() == actor {
            self.actors.push((vec![], String::new()));
        }
        let (before, text) = &mut self.actors[actor];
        if before != bytes {
            *before = bytes.to_vec();
            *text = indented(Dump { bytes }.actor(actor as u64));
        }
        text
    }

    fn tell(&mut self, bytes: &[u8], all: &mut String) {
        let count = Dump { bytes }.number(COUNT) as usize;
        if count == 0 {
            *all += "  blank\n";
            return;
        }
        let mut lines = Vec::new();
        Dump { bytes: &bytes[COUNT..] }.network(&mut lines);
        *all += &indented(lines);
        for (actor, own) in bytes[COUNT + NETWORK..].chunks(ACTOR).take(count).enumerate() {
            *all += self.actor(actor, own);
        }
    }
}

/// The output of the port; with states, as many as there is room for.
fn replayed(script: &[u8], room: &mut Room, states: bool) -> String {
    let text = replay(script, room);
    if !states {
        return text;
    }
    let end = unsafe { states_all(script, &mut room.states) };
    let mut dumps = room.states[..end].chunks(SIZE);
    let mut facts = Facts::default();
    let mut all = String::new();
    for line in text.lines() {
        all += line;
        all += "\n";
        if line.starts_with("done") || line.starts_with("bad") {
            continue;
        }
        if let Some(bytes) = dumps.next() {
            facts.tell(bytes, &mut all);
        }
    }
    all
}

/// A long script takes as much time as fifty others, so that one in sixteen of them is taken.
fn is_left_out(seed: u64) -> bool {
    seed % 16 == 15 && seed / 16 % 16 != 0
}

/// What was compared so far.
#[derive(Default)]
struct Tally {
    scripts: u64,
    actions: u64,
    systems: u64,
    differ: u64,
}

impl Tally {
    /// The port's systems beside the Rust's, as many as were dumped, and then every line.
    fn take(&mut self, bytes: &[u8], room: &mut Room) -> bool {
        let end = unsafe { states_all(bytes, &mut room.states) };
        let mut dumps = room.states[..end].chunks(SIZE);
        let mut image = Image::default();
        let mut same = true;
        let (systems, actions) = (&mut self.systems, &mut self.actions);
        let theirs = report_with(bytes, &mut |run: Option<&Run>| {
            *actions += 1;
            if let Some(dump) = dumps.next() {
                *systems += 1;
                same &= dump == image.of(run);
            }
        });
        same && replay(bytes, room) == theirs
    }
}

/// The whole system is compared after every answer (of the first `MOST` actions of a script), and every line.
pub fn agree(first: u64, count: u64) -> Result<(), String> {
    let mut room = Room::new();
    let mut tally = Tally::default();
    for seed in (first..first + count).filter(|seed| !is_left_out(*seed)) {
        let bytes = generate(seed);
        tally.scripts += 1;
        if !tally.take(&bytes, &mut room) {
            tally.differ += 1;
            let theirs = report(&bytes, Options { marks: false, states: true });
            let ours = replayed(&bytes, &mut room, true);
            println!("seed {seed} ({:?}): {}", profile(seed), crate::compare::difference(&theirs, &ours));
        }
    }
    let Tally { scripts, actions, systems, differ } = tally;
    println!("seeds {first} to {}: {scripts} scripts, {actions} answers, {systems} whole systems, {differ} differ", first + count - 1);
    if differ == 0 {
        Ok(())
    } else {
        Err("the outputs differ".to_string())
    }
}
