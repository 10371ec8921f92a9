//! Runs a replay program beside the oracle on scripts made from seeds, and tells where they differ; makes a script
//! smaller while they still differ; counts which answers the scripts reach.
use crate::generate::{generate, profile};
use crate::report::{report, Options};
use crate::script::{read, write, Script};
use crate::text::text;
use std::collections::BTreeMap;
use std::io::Write;
use std::process::{Command, Stdio};

/// What the program writes when the script is its standard input.
fn replayed(program: &str, bytes: &[u8]) -> Result<String, String> {
    let mut child = Command::new(program)
        .stdin(Stdio::piped())
        .stdout(Stdio::piped())
        .spawn()
        .map_err(|told| format!("{program}: {told}"))?;
    let mut stdin = child.stdin.take().expect("a pipe");
    let script = bytes.to_vec();
    // In a thread of its own, so that a program that writes before it has read all cannot block.
    let writer = std::thread::spawn(move || stdin.write_all(&script));
    let result = child.wait_with_output().map_err(|told| told.to_string())?;
    let written = writer.join().expect("the writer ends");
    if result.status.code().is_none() || written.is_err() {
        return Ok(format!("ended early: {}", result.status));
    }
    Ok(String::from_utf8_lossy(&result.stdout).into_owned())
}

/// The first line in which two outputs differ.
pub fn difference(ours: &str, theirs: &str) -> String {
    let (mut x, mut y) = (ours.lines(), theirs.lines());
    let mut line = 1;
    loop {
        match (x.next(), y.next()) {
            (None, None) => return "they differ in line ends only".to_string(),
            (a, b) if a == b => line += 1,
            (a, b) => return format!("line {line}: oracle `{}`, program `{}`", a.unwrap_or("nothing"), b.unwrap_or("nothing")),
        }
    }
}

/// With states in the options the program must write them too, as the oracle does.
pub fn compare(program: &str, first: u64, count: u64, options: Options) -> Result<(), String> {
    let mut differ = 0;
    for seed in first..first + count {
        let bytes = generate(seed);
        let ours = report(&bytes, options);
        let theirs = replayed(program, &bytes)?;
        if ours != theirs {
            differ += 1;
            println!("seed {seed} ({:?}): {}", profile(seed), difference(&ours, &theirs));
        }
    }
    println!("{count} scripts, {differ} differ");
    if differ == 0 {
        Ok(())
    } else {
        Err("the outputs differ".to_string())
    }
}

/// Every script that is the given one without an envelope, the last actor, a rule or a command.
fn smaller(script: &Script) -> Vec<Script> {
    let mut list = Vec::new();
    let mut without = |change: &dyn Fn(&mut Script)| {
        let mut less = script.clone();
        change(&mut less);
        list.push(less);
    };
    for place in 0..script.envelopes.len() {
        without(&|less| drop(less.envelopes.remove(place)));
    }
    if script.tables.len() > 1 {
        without(&|less| drop(less.tables.pop()));
    }
    for (actor, table) in script.tables.iter().enumerate() {
        for (place, rule) in table.iter().enumerate() {
            without(&|less| drop(less.tables[actor].remove(place)));
            for command in 0..rule.commands.len() {
                without(&|less| drop(less.tables[actor][place].commands.remove(command)));
            }
        }
    }
    list
}

struct Shrink<'a> {
    program: &'a str,
    script: Script,
}

impl Shrink<'_> {
    /// Takes the other script if the outputs differ on it too.
    fn takes(&mut self, other: Script) -> Result<bool, String> {
        let bytes = write(&other);
        let differs = report(&bytes, Options::default()) != replayed(self.program, &bytes)?;
        if differs {
            self.script = other;
        }
        Ok(differs)
    }

    /// Leaves out runs of actions, long ones first.
    fn actions(&mut self) -> Result<(), String> {
        let mut piece = self.script.actions.len();
        while piece > 0 {
            let mut start = 0;
            while start < self.script.actions.len() {
                let mut less = self.script.clone();
                less.actions.drain(start..(start + piece).min(less.actions.len()));
                if !self.takes(less)? {
                    start += piece;
                }
            }
            piece /= 2;
        }
        Ok(())
    }

    /// Leaves out one other thing, if that can be.
    fn other(&mut self) -> Result<bool, String> {
        for less in smaller(&self.script) {
            if self.takes(less)? {
                return Ok(true);
            }
        }
        Ok(false)
    }
}

/// The script of a seed, made smaller as long as the two outputs differ. It must be readable to the oracle.
pub fn shrink(program: &str, seed: u64) -> Result<(), String> {
    let script = read(&generate(seed)).map_err(|place| format!("bad {place}: a damaged script is not made smaller"))?;
    let mut shrink = Shrink { program, script: script.clone() };
    if !shrink.takes(script)? {
        return Err("the outputs do not differ".to_string());
    }
    shrink.actions()?;
    while shrink.other()? {}
    shrink.actions()?;
    let bytes = write(&shrink.script);
    print!("{}", text(&shrink.script));
    println!("# {}", difference(&report(&bytes, Options::default()), &replayed(program, &bytes)?));
    Ok(())
}

/// How often each answer is given, by profile.
pub fn count(first: u64, count: u64) -> Result<(), String> {
    let mut counts: BTreeMap<(String, String), usize> = BTreeMap::new();
    for seed in first..first + count {
        for line in report(&generate(seed), Options { marks: true, states: false }).lines() {
            let words: Vec<&str> = line.split(' ').collect();
            let sort = match words[0] {
                "done" => continue,
                "bad" => "bad".to_string(),
                "start" => format!("start {} {}", words[1], words[3]),
                _ => format!("step {} {}", words[0], words[2]),
            };
            *counts.entry((format!("{:?}", profile(seed)), sort)).or_insert(0) += 1;
        }
    }
    counts.iter().for_each(|((profile, sort), times)| println!("{profile:8} {sort:14} {times}"));
    Ok(())
}
