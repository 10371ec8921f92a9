//! A script as lines of text that a person can write and read, and back. Words: `kind K`; `actor` (a table begins);
//! `rule EVENT STATE LOW HIGH touched|untouched NEXT`, then commands, each after a comma: `set T`, `cancel T`,
//! `send DST|source PAYLOAD|echo`, `save VALUE|echo`; `envelope E`; `deliver E`, `drop E`, `timeout ID T`, `crash ID`,
//! `recover ID`. E is `SRC DST deliver NUMBER PAYLOAD` or `SRC DST ack NUMBER`. `#` begins a comment.
//! A value that stands under `source` or `echo`, as in an unsound rule, is written `source+5`.
use crate::script::{envelope, Action, Env, Script};
use crate::table::{Command, Rule};
use crate::view::envelope_text;
use stateright::actor::ordered_reliable_link::MsgWrapper;

type Told<T> = Result<T, String>;

fn marked(mark: &str, on: bool, value: u32) -> String {
    match (on, value) {
        (false, _) => value.to_string(),
        (true, 0) => mark.to_string(),
        (true, _) => format!("{mark}+{value}"),
    }
}

fn command_text(command: &Command) -> String {
    match *command {
        Command::Set(timer) => format!(", set {timer}"),
        Command::Cancel(timer) => format!(", cancel {timer}"),
        Command::Send { source, dst, echo, payload } => {
            format!(", send {} {}", marked("source", source, dst as u32), marked("echo", echo, payload))
        }
        Command::Save { echo, value } => format!(", save {}", marked("echo", echo, value)),
    }
}

fn rule_text(rule: &Rule) -> String {
    let touched = if rule.touched { "touched" } else { "untouched" };
    let commands: String = rule.commands.iter().map(command_text).collect();
    format!("rule {} {} {} {} {touched} {}{commands}\n", rule.event, rule.state, rule.low, rule.high, rule.next)
}

pub fn action_text(action: &Action) -> String {
    match action {
        Action::Deliver(env) => format!("deliver {}", envelope_text(env)),
        Action::Drop(env) => format!("drop {}", envelope_text(env)),
        Action::Timeout(id, timer) => format!("timeout {id} {timer}"),
        Action::Crash(id) => format!("crash {id}"),
        Action::Recover(id) => format!("recover {id}"),
    }
}

pub fn text(script: &Script) -> String {
    let mut text = format!("kind {}\n", script.kind);
    for table in &script.tables {
        text += "actor\n";
        table.iter().for_each(|rule| text += &rule_text(rule));
    }
    script.envelopes.iter().for_each(|env| text += &format!("envelope {}\n", envelope_text(env)));
    script.actions.iter().for_each(|action| text += &format!("{}\n", action_text(action)));
    text
}

fn number<T: std::str::FromStr>(words: &mut std::str::SplitWhitespace) -> Told<T> {
    let word = words.next().ok_or("a number is missing")?;
    word.parse().map_err(|_| format!("no number, or too large: {word}"))
}

fn unmarked(mark: &str, words: &mut std::str::SplitWhitespace) -> Told<(bool, u32)> {
    let word = words.next().ok_or("a value is missing")?;
    let plain = |digits: &str| digits.parse().map_err(|_| format!("no value: {word}"));
    match word.strip_prefix(mark) {
        None => Ok((false, plain(word)?)),
        Some("") => Ok((true, 0)),
        Some(rest) => Ok((true, plain(rest.trim_start_matches('+'))?)),
    }
}

fn command(text: &str) -> Told<Command> {
    let mut words = text.split_whitespace();
    match words.next() {
        Some("set") => Ok(Command::Set(number(&mut words)?)),
        Some("cancel") => Ok(Command::Cancel(number(&mut words)?)),
        Some("send") => {
            let (source, dst) = unmarked("source", &mut words)?;
            let (echo, payload) = unmarked("echo", &mut words)?;
            Ok(Command::Send { source, dst: dst as u8, echo, payload })
        }
        Some("save") => {
            let (echo, value) = unmarked("echo", &mut words)?;
            Ok(Command::Save { echo, value })
        }
        _ => Err(format!("no command: {text}")),
    }
}

fn rule(text: &str) -> Told<Rule> {
    let mut parts = text.split(',');
    let mut words = parts.next().unwrap_or("").split_whitespace();
    let (event, state) = (number(&mut words)?, number(&mut words)?);
    let (low, high) = (number(&mut words)?, number(&mut words)?);
    let touched = match words.next() {
        Some("touched") => true,
        Some("untouched") => false,
        _ => return Err("touched or untouched is missing".to_string()),
    };
    let next = number(&mut words)?;
    let commands = parts.map(command).collect::<Told<_>>()?;
    Ok(Rule { event, state, low, high, touched, next, commands })
}

fn env(words: &mut std::str::SplitWhitespace) -> Told<Env> {
    let (src, dst) = (number(words)?, number(words)?);
    match words.next() {
        Some("deliver") => Ok(envelope(src, dst, MsgWrapper::Deliver(number(words)?, number(words)?))),
        Some("ack") => Ok(envelope(src, dst, MsgWrapper::Ack(number(words)?))),
        _ => Err("deliver or ack is missing".to_string()),
    }
}

fn line(script: &mut Script, line: &str) -> Told<()> {
    let mut words = line.split_whitespace();
    let first = words.next().unwrap_or("");
    match first {
        "" => {}
        "kind" => script.kind = number(&mut words)?,
        "actor" => script.tables.push(Vec::new()),
        "rule" => {
            let table = script.tables.last_mut().ok_or("a rule before the first actor")?;
            table.push(rule(&line.trim_start()[4..])?);
            return Ok(());
        }
        "envelope" => script.envelopes.push(env(&mut words)?),
        "deliver" => script.actions.push(Action::Deliver(env(&mut words)?)),
        "drop" => script.actions.push(Action::Drop(env(&mut words)?)),
        "timeout" => script.actions.push(Action::Timeout(number(&mut words)?, number(&mut words)?)),
        "crash" => script.actions.push(Action::Crash(number(&mut words)?)),
        "recover" => script.actions.push(Action::Recover(number(&mut words)?)),
        _ => return Err(format!("unknown word: {first}")),
    }
    words.next().map_or(Ok(()), |word| Err(format!("too much on the line: {word}")))
}

pub fn parse(text: &str) -> Told<Script> {
    let mut script = Script::default();
    for (place, whole) in text.lines().enumerate() {
        let bare = whole.split('#').next().unwrap_or("");
        line(&mut script, bare).map_err(|told| format!("line {}: {told}", place + 1))?;
    }
    Ok(script)
}
