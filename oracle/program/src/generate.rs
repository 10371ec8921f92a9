//! Random scripts that follow from a seed. The actions are chosen while the Rust runs them, so that most name what is
//! there: an envelope on the network, a timer that is set, an actor that is crashed.
use crate::drive::{start, Run};
use crate::random::Random;
use crate::script::{envelope, number_of, size, write, Action, Env, Message, Script, LONGEST};
use crate::tables::{destination, payload, pump, spoil, stateful, table, Taste};
use crate::view::{entries, live, timers, NETWORK};
use stateright::actor::Network;

#[derive(Clone, Copy, Debug, PartialEq)]
pub enum Profile {
    /// Everything a little.
    Mixed,
    /// Kinds 1 and 2, many equal numbers and crashes: the link.
    Links,
    /// Tables that send much, few Acks: 32 pending messages and more.
    Pending,
    /// Many starting envelopes: 128 entries and more.
    Crowd,
    /// A start that is refused as 10.
    Unsound,
    /// A script whose bytes were damaged.
    Damaged,
    /// As long as a script may be.
    Long,
}

pub fn profile(seed: u64) -> Profile {
    match seed % 16 {
        0..=4 => Profile::Mixed,
        5..=7 => Profile::Links,
        8 | 9 => Profile::Pending,
        10 | 11 => Profile::Crowd,
        12 => Profile::Unsound,
        13 | 14 => Profile::Damaged,
        _ => Profile::Long,
    }
}

/// How often each sort of action is chosen.
struct Weights {
    deliver: usize,
    near: usize,
    drop: usize,
    timeout: usize,
    crash: usize,
    recover: usize,
    wrong: usize,
}

fn weights(profile: Profile) -> Weights {
    let mixed = Weights { deliver: 45, near: 6, drop: 8, timeout: 22, crash: 5, recover: 8, wrong: 6 };
    match profile {
        Profile::Links => Weights { deliver: 52, near: 22, drop: 3, timeout: 14, crash: 2, recover: 6, wrong: 1 },
        Profile::Pending => Weights { deliver: 30, near: 1, drop: 22, timeout: 40, crash: 2, recover: 4, wrong: 1 },
        Profile::Crowd => Weights { deliver: 40, near: 2, drop: 6, timeout: 45, crash: 2, recover: 4, wrong: 1 },
        _ => mixed,
    }
}

fn some_number(random: &mut Random) -> u64 {
    match random.below(30) {
        0 => u64::MAX,
        1 => u64::MAX - 1,
        2 => random.next(),
        _ => random.below(7) as u64,
    }
}

fn some_message(random: &mut Random) -> Message {
    let number = some_number(random);
    if random.chance(75) {
        Message::Deliver(number, payload(random))
    } else {
        Message::Ack(number)
    }
}

fn some_envelope(random: &mut Random, actors: usize) -> Env {
    let (src, dst) = (random.below(actors) as u8, destination(random, actors));
    envelope(src, dst, some_message(random))
}

/// An envelope that differs in one field, mostly.
fn near(random: &mut Random, env: &Env) -> Env {
    let (mut src, mut dst) = (number_of(env.src) as u8, number_of(env.dst) as u8);
    let mut msg = env.msg.clone();
    match (random.below(4), &mut msg) {
        (0, _) => src = random.below(9) as u8,
        (1, _) => dst = random.below(9) as u8,
        (2, Message::Deliver(number, _) | Message::Ack(number)) => *number = number.wrapping_add(random.one_of(&[1, u64::MAX])),
        (_, Message::Deliver(number, _)) => msg = Message::Ack(*number),
        (_, Message::Ack(number)) => msg = Message::Deliver(*number, payload(random)),
    }
    envelope(src, dst, msg)
}

fn wrong(random: &mut Random, actors: usize) -> Action {
    let id = random.one_of(&[0, actors as u8, 7, 8, 255]);
    match random.below(6) {
        0 => Action::Deliver(envelope(id, random.below(9) as u8, some_message(random))),
        1 => Action::Drop(envelope(id, random.below(9) as u8, some_message(random))),
        2 => Action::Timeout(id, random.below(32) as u8),
        3 => Action::Crash(id),
        4 => Action::Recover(id),
        _ => Action::Timeout(random.below(actors) as u8, random.below(32) as u8),
    }
}

/// An envelope of the network, if there is one. On kind 0 mostly the front of a flow.
fn present(random: &mut Random, run: &Run) -> Option<Env> {
    let fronts: Vec<Env> = run.system.network.iter_deliverable().map(|env| env.to_cloned_msg()).collect();
    let all: Vec<Env> = entries(&run.system.network).into_iter().map(|(_, env)| env).collect();
    if all.is_empty() {
        return None;
    }
    let mut list = if random.chance(70) { fronts } else { all };
    list.sort();
    let env = random.one_of(&list);
    // An envelope to nobody, or to a crashed actor, is no news; another one is tried once.
    let live = run.system.crashed.get(usize::from(env.dst)) == Some(&false);
    Some(if live { env } else { random.one_of(&list) })
}

/// An envelope of the network, or any.
fn some(random: &mut Random, run: &Run) -> Env {
    present(random, run).unwrap_or_else(|| some_envelope(random, run.actors()))
}

/// The last number that an actor took from a source, or the next one or two. If it is ignored, it comes again.
fn fresh(random: &mut Random, run: &Run) -> Env {
    let (src, dst) = (random.below(run.actors()), random.below(run.actors()));
    let taken = live(&run.system, dst).taken.iter().find(|(source, _)| *source == src as u64).map_or(0, |(_, number)| *number);
    let number = taken.saturating_add(random.one_of(&[0, 1, 1, 1, 2]));
    envelope(src as u8, dst as u8, Message::Deliver(number, random.below(8) as u32))
}

/// A Deliver of what is there. If nothing is, mostly a timeout, which may send something.
fn deliver(random: &mut Random, run: &Run) -> Action {
    match present(random, run) {
        Some(env) => Action::Deliver(env),
        None if random.chance(85) => timeout(random, run),
        None => Action::Deliver(some_envelope(random, run.actors())),
    }
}

/// A timer that is set, or a random one. Network with nothing pending is ignored, so it is mostly passed over.
fn timeout(random: &mut Random, run: &Run) -> Action {
    let idle = random.chance(15);
    let mut set = Vec::new();
    for id in 0..run.actors() {
        let pending = !live(&run.system, id).pending.is_empty();
        let chosen = timers(&run.system, id).into_iter().filter(|timer| *timer != NETWORK || pending || idle);
        set.extend(chosen.map(|timer| (id as u8, timer)));
    }
    let (id, timer) =
        if set.is_empty() { (random.below(run.actors()) as u8, random.below(32) as u8) } else { random.one_of(&set) };
    // Resending fills the network, so user timers have a second chance.
    let (id, timer) = if timer == NETWORK && !set.is_empty() { random.one_of(&set) } else { (id, timer) };
    Action::Timeout(id, timer)
}

fn recover(random: &mut Random, run: &Run) -> Action {
    let crashed: Vec<usize> = (0..run.actors()).filter(|id| run.system.crashed[*id]).collect();
    if crashed.is_empty() && random.chance(80) {
        return deliver(random, run);
    }
    let any = crashed.is_empty() || random.chance(5);
    Action::Recover(if any { random.below(run.actors()) } else { random.one_of(&crashed) } as u8)
}

fn action(random: &mut Random, run: &Run, weights: &Weights) -> Action {
    let parts = [weights.deliver, weights.near, weights.drop, weights.timeout, weights.crash, weights.recover, weights.wrong];
    let mut drawn = random.below(parts.iter().sum());
    let mut sort = 0;
    while drawn >= parts[sort] {
        drawn -= parts[sort];
        sort += 1;
    }
    match sort {
        0 => deliver(random, run),
        // On kind 1 a Deliver need not name what is there.
        1 if matches!(run.system.network, Network::UnorderedDuplicating(_, _)) && random.chance(75) => {
            Action::Deliver(fresh(random, run))
        }
        1 => {
            let env = some(random, run);
            let other = near(random, &env);
            random.one_of(&[Action::Deliver(other.clone()), Action::Deliver(other.clone()), Action::Drop(other)])
        }
        2 => Action::Drop(some(random, run)),
        3 => timeout(random, run),
        4 => Action::Crash(random.below(run.actors()) as u8),
        5 => recover(random, run),
        _ => wrong(random, run.actors()),
    }
}

fn start_envelope(random: &mut Random, actors: usize, above: u64) -> Env {
    let mut env = some_envelope(random, actors);
    match &mut env.msg {
        Message::Deliver(number, _) | Message::Ack(number) => *number = number.saturating_add(above),
    }
    env
}

fn opening(random: &mut Random, profile: Profile) -> Script {
    let (most, taste, envelopes) = match profile {
        Profile::Pending => (3, Taste { sends: 75, commands: 3 }, random.between(0, 6)),
        Profile::Crowd => (4, Taste { sends: 60, commands: 1 }, random.one_of(&[100, 110, 120, 126, 127, 128])),
        Profile::Links => (3, Taste { sends: 40, commands: 0 }, random.between(5, 60)),
        _ => (8, Taste { sends: 40, commands: 0 }, random.between(0, 8)),
    };
    let actors = random.between(1, most);
    let kind = if profile == Profile::Links { random.between(1, 2) } else { random.below(3) } as u8;
    let statefuls = if profile == Profile::Links { 80 } else { 25 };
    let one = |random: &mut Random| if random.chance(statefuls) { stateful(random) } else { table(random, actors, taste) };
    let mut tables: Vec<_> = (0..actors).map(|_| one(random)).collect();
    let pumps = match profile {
        Profile::Pending => 100,
        Profile::Links => 5,
        _ => 20,
    };
    for rules in &mut tables {
        if random.chance(pumps) {
            pump(random, actors, rules);
        }
    }
    // How far apart the numbers are: equal envelopes are common, or rare, so that each is an entry of its own.
    let apart = match profile {
        Profile::Crowd if random.chance(50) => 1,
        Profile::Links => random.between(2, 10),
        _ => 1000,
    };
    let envelopes = (0..envelopes).map(|place| start_envelope(random, actors, (place / apart) as u64)).collect();
    Script { kind, tables, envelopes, actions: Vec::new() }
}

/// Fills the script up to the longest, and to the very byte if the last records allow it.
fn long(random: &mut Random, run: &mut Run, script: &mut Script) {
    let weights = weights(Profile::Mixed);
    let mut left = LONGEST - write(script).len();
    while left >= 2 {
        let mut next = action(random, run, &weights);
        if size(&next) > left {
            next = Action::Timeout(random.below(8) as u8, NETWORK);
        }
        left -= size(&next);
        run.step(&next);
        script.actions.push(next);
    }
}

fn script(random: &mut Random, profile: Profile) -> Script {
    let mut script = opening(random, profile);
    if profile == Profile::Unsound {
        spoil(random, &mut script);
        script.actions.push(Action::Crash(0));
    }
    let Ok(mut run) = start(&script) else { return script };
    if profile == Profile::Long {
        long(random, &mut run, &mut script);
        return script;
    }
    let weights = weights(profile);
    let most = if profile == Profile::Links { 600 } else { random.one_of(&[5, 40, 150, 400]) };
    for _ in 0..random.between(0, most) {
        let next = action(random, &run, &weights);
        run.step(&next);
        script.actions.push(next);
    }
    script
}

fn damage(random: &mut Random, bytes: &mut Vec<u8>) {
    if bytes.is_empty() {
        return;
    }
    // Half of the damage is near the front, where the records are of more sorts.
    let reach = if random.chance(50) { bytes.len().min(40) } else { bytes.len() };
    let place = random.below(reach);
    match random.below(9) {
        0..=3 => bytes[place] ^= 1 << random.below(8),
        4 => bytes[place] = random.next() as u8,
        5 => bytes.truncate(place),
        6 => (0..random.between(1, 3)).for_each(|_| bytes.push(random.one_of(&[0, 0, 1, 0x80, 0xff]))),
        7 => drop(bytes.remove(place)),
        _ => bytes.insert(place, random.next() as u8),
    }
}

/// Bytes that are no damaged script but special: none, random, or near the longest.
fn special(random: &mut Random, bytes: &mut Vec<u8>) {
    match random.below(5) {
        0 => bytes.clear(),
        1 => *bytes = (0..random.between(1, 40)).map(|_| random.next() as u8).collect(),
        2 => bytes.resize(LONGEST, 0),
        3 => bytes.resize(LONGEST + 1, 0),
        _ => bytes.truncate(bytes.len() - 1),
    }
}

pub fn generate(seed: u64) -> Vec<u8> {
    let mut random = Random(seed);
    let profile = profile(seed);
    if profile != Profile::Damaged {
        return write(&script(&mut random, profile));
    }
    let base = random.one_of(&[Profile::Mixed, Profile::Links, Profile::Pending]);
    let mut bytes = write(&script(&mut random, base));
    if random.chance(12) {
        special(&mut random, &mut bytes);
    } else {
        (0..random.between(1, 2)).for_each(|_| damage(&mut random, &mut bytes));
    }
    bytes
}
