//! Random rule tables: sound ones, and one defect put into a script that makes its start unsound.
use crate::random::Random;
use crate::script::{envelope, number_of, Script};
use crate::table::{Command, Rule, MESSAGE, START, START_WITH, TIMEOUT};

/// How lively a table is: how many commands of a rule are sends, in a hundred, and the least number of commands.
#[derive(Clone, Copy)]
pub struct Taste {
    pub sends: usize,
    pub commands: usize,
}

pub fn payload(random: &mut Random) -> u32 {
    match random.below(20) {
        0 => u32::MAX,
        1 => random.next() as u32,
        _ => random.below(10) as u32,
    }
}

fn user_timer(random: &mut Random) -> u8 {
    if random.chance(85) {
        random.below(4) as u8
    } else {
        random.below(31) as u8
    }
}

/// Mostly an actor that is there.
pub fn destination(random: &mut Random, actors: usize) -> u8 {
    if random.chance(93) {
        random.below(actors) as u8
    } else {
        random.one_of(&[actors as u8, 8, 255])
    }
}

fn command(random: &mut Random, event: u8, actors: usize, taste: Taste) -> Command {
    let echo = random.chance(40);
    let value = if echo { 0 } else { payload(random) };
    if random.chance(taste.sends) {
        let source = event == MESSAGE && random.chance(50);
        let dst = if source { 0 } else { destination(random, actors) };
        return Command::Send { source, dst, echo, payload: value };
    }
    match random.below(5) {
        0 | 1 => Command::Set(user_timer(random)),
        2 => Command::Cancel(user_timer(random)),
        _ => Command::Save { echo, value },
    }
}

fn range(random: &mut Random, event: u8) -> (u32, u32) {
    let pair = match (event, random.below(10)) {
        (START, 0) => (0, payload(random)),
        (START, 1) => (1, 9),
        (START, _) => (0, 0),
        (_, 0..=3) => (0, u32::MAX),
        (MESSAGE, 4 | 5) => (0, 9),
        (TIMEOUT, _) => (random.below(5) as u32, random.below(32) as u32),
        _ => (payload(random), payload(random)),
    };
    (pair.0.min(pair.1), pair.0.max(pair.1))
}

fn rule(random: &mut Random, event: u8, actors: usize, taste: Taste) -> Rule {
    let start = event == START || event == START_WITH;
    let some_state = |random: &mut Random| if random.chance(90) { random.below(3) as u8 } else { random.below(16) as u8 };
    let state = if start { 0 } else { some_state(random) };
    let touched = start || random.chance(70);
    let next = if touched { some_state(random) } else { state };
    let (low, high) = range(random, event);
    let least = if random.chance(75) { taste.commands } else { 0 };
    let count = random.between(least, 4);
    let commands = (0..count).map(|_| command(random, event, actors, taste)).collect();
    Rule { event, state, low, high, touched, next, commands }
}

pub fn table(random: &mut Random, actors: usize, taste: Taste) -> Vec<Rule> {
    let mut rules = Vec::new();
    let wanted = [(START, 60, 1), (START_WITH, 50, 2), (MESSAGE, 90, 7), (TIMEOUT, 70, 4)];
    for (event, percent, most) in wanted {
        if random.chance(percent) {
            let count = random.between(1, most);
            rules.extend((0..count).map(|_| rule(random, event, actors, taste)));
        }
    }
    // Now and then a table as long as it may be, its last rules shadowed or not.
    while random.chance(5) || (rules.len() > 8 && rules.len() < 16 && random.chance(60)) {
        let event = random.below(4) as u8;
        rules.push(rule(random, event, actors, taste));
    }
    rules.truncate(16);
    rules
}

/// A table in which much hangs on the state and little is ignored for good: each of three states takes other payloads
/// and answers in its own way, so that a wrong state or a wrong last taken number soon shows in what is sent.
pub fn stateful(random: &mut Random) -> Vec<Rule> {
    let blank = Rule { event: START, state: 0, low: 0, high: 0, touched: true, next: 0, commands: Vec::new() };
    let mut rules = vec![Rule { next: random.below(3) as u8, commands: vec![Command::Set(0), Command::Set(1)], ..blank.clone() }];
    rules.push(Rule { event: START_WITH, high: u32::MAX, ..rules[0].clone() });
    for state in 0..3 {
        let leave = (state + 1 + random.below(2) as u8) % 3;
        let low = random.below(5) as u32;
        let high = low + random.below(4) as u32;
        let count = random.below(3);
        let back = Command::Send { source: true, dst: 0, echo: true, payload: 0 };
        let mut commands = vec![back; count];
        if random.chance(30) {
            commands.push(Command::Save { echo: true, value: 0 });
        }
        let touched = random.chance(80);
        let next = if touched { leave } else { state };
        // A message that is taken although it changes nothing and gives no command.
        let quiet = random.below(8) as u32;
        if random.chance(60) {
            rules.push(Rule { event: MESSAGE, state, low: quiet, high: quiet, next: state, ..blank.clone() });
        }
        rules.push(Rule { event: MESSAGE, state, low, high, touched, next, commands, ..blank.clone() });
        let timer = random.below(2) as u8;
        let commands = if random.chance(60) { vec![Command::Set(timer)] } else { Vec::new() };
        rules.push(Rule { event: TIMEOUT, state, high: 31, next: leave, commands, ..blank.clone() });
    }
    rules
}

/// Rules before all others that send at each timeout of timer 0 and set it again, as long as the inner state is 0.
pub fn pump(random: &mut Random, actors: usize, table: &mut Vec<Rule>) {
    let sends = (0..random.between(1, 3)).map(|_| command(random, TIMEOUT, actors, Taste { sends: 100, commands: 0 }));
    let commands: Vec<Command> = [Command::Set(0)].into_iter().chain(sends).collect();
    let again = Rule { event: TIMEOUT, state: 0, low: 0, high: 0, touched: false, next: 0, commands };
    let first = Rule { event: START, touched: true, commands: vec![Command::Set(0)], ..again.clone() };
    let later = Rule { event: START_WITH, high: u32::MAX, ..first.clone() };
    table.truncate(13);
    table.splice(0..0, [first, later, again]);
}

/// Puts one defect into the script's start: a rule that is not sound, or an envelope of an unknown source.
pub fn spoil(random: &mut Random, script: &mut Script) {
    let actors = script.tables.len();
    let place = random.below(actors);
    let defect = random.below(9);
    if defect == 0 {
        let source = random.between(actors, 255) as u8;
        match script.envelopes.last_mut() {
            Some(env) => *env = envelope(source, number_of(env.dst) as u8, env.msg.clone()),
            None => script.envelopes.push(envelope(source, 0, crate::script::Message::Ack(1))),
        }
        return;
    }
    let table = &mut script.tables[place];
    let event = random.one_of(&[MESSAGE, TIMEOUT]);
    let mut bad = rule(random, event, actors, Taste { sends: 50, commands: 0 });
    bad.commands.truncate(3);
    defective(random, &mut bad, defect);
    table.truncate(15);
    table.insert(random.below(table.len() + 1), bad);
}

fn defective(random: &mut Random, bad: &mut Rule, defect: usize) {
    let nonzero = random.between(1, 255) as u8;
    match defect {
        1 => (bad.low, bad.high) = (bad.high.max(1), bad.high.max(1) - 1),
        2 => (bad.event, bad.state, bad.touched) = (random.below(2) as u8, random.between(1, 15) as u8, true),
        3 => (bad.event, bad.state, bad.next, bad.touched) = (random.below(2) as u8, 0, 0, false),
        4 => (bad.touched, bad.next) = (false, (bad.state + 1) % 16),
        5 => bad.commands.push(if random.chance(50) { Command::Set(31) } else { Command::Cancel(31) }),
        6 => {
            bad.event = TIMEOUT;
            bad.commands.push(Command::Send { source: true, dst: 0, echo: false, payload: 1 });
        }
        7 => {
            bad.event = MESSAGE;
            bad.commands.push(Command::Send { source: true, dst: nonzero, echo: false, payload: 1 });
        }
        _ => bad.commands.push(if random.chance(50) {
            Command::Send { source: false, dst: 0, echo: true, payload: nonzero as u32 }
        } else {
            Command::Save { echo: true, value: nonzero as u32 }
        }),
    }
}
