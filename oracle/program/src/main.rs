//! The oracle: runs action scripts through the Rust, makes scripts, and compares a replay program with it.
#[cfg(feature = "ours")]
mod bench;
mod compare;
mod drive;
mod faults;
mod generate;
#[cfg(feature = "ours")]
mod image;
mod list;
#[cfg(feature = "ours")]
mod ours;
mod random;
mod report;
mod script;
mod sheet;
mod table;
mod tables;
mod text;
mod view;

use report::{report, Options};
use std::io::{Read, Write};
use std::process::ExitCode;

const USAGE: &str = "oracle run [--marks] [--states] [FILE]
                                    the output for a script; `oracle` alone reads standard input
oracle text [FILE]                  a script in words
oracle bytes [FILE]                 a script from words
oracle sheet FILE...                checks written sheets
oracle faults                       what the Rust does by itself where the port differs
oracle make SEED                    the script of a seed
oracle count FIRST COUNT            which answers the scripts of these seeds reach
oracle compare [--states] PROGRAM FIRST COUNT
                                    runs a replay program beside the oracle on the scripts of these seeds
oracle list FIRST COUNT [SHEET...]  scripts with their outputs, for a program to replay: the sheets', then those of these seeds
oracle agree FIRST COUNT            the port, where it is linked in, beside the oracle: whole systems
oracle bench                        how many actions a second the port and the Rust perform
oracle shrink PROGRAM SEED          a smaller script on which they differ";

/// The file that is named, or standard input.
fn input(name: Option<&String>) -> Result<Vec<u8>, String> {
    let mut bytes = Vec::new();
    match name {
        Some(name) => std::fs::read(name).map_err(|told| format!("{name}: {told}")),
        None => std::io::stdin().read_to_end(&mut bytes).map(|_| bytes).map_err(|told| told.to_string()),
    }
}

/// The file that is named, or standard input, as text.
fn input_text(name: Option<&String>) -> Result<String, String> {
    String::from_utf8(input(name)?).map_err(|told| told.to_string())
}

fn output(bytes: &[u8]) -> Result<(), String> {
    std::io::stdout().write_all(bytes).map_err(|told| told.to_string())
}

fn run(args: &[String]) -> Result<(), String> {
    let has = |flag: &str| args.iter().any(|arg| arg == flag);
    let options = Options { marks: has("--marks"), states: has("--states") };
    let file = args.iter().find(|arg| !arg.starts_with("--"));
    output(report(&input(file)?, options).as_bytes())
}

fn to_text(args: &[String]) -> Result<(), String> {
    let script = script::read(&input(args.first())?).map_err(|place| format!("bad {place}"))?;
    output(text::text(&script).as_bytes())
}

fn to_bytes(args: &[String]) -> Result<(), String> {
    output(&script::write(&text::parse(&input_text(args.first())?)?))
}

fn sheets(files: &[String]) -> Result<(), String> {
    for file in files {
        let lines = sheet::check(&input_text(Some(file))?).map_err(|told| format!("{file}: {told}"))?;
        println!("{file}: {lines} lines as expected");
    }
    Ok(())
}

fn number(args: &[String], place: usize) -> Result<u64, String> {
    let word = args.get(place).ok_or(USAGE)?;
    word.parse().map_err(|_| format!("no number: {word}"))
}

fn program(args: &[String]) -> Result<&str, String> {
    Ok(args.first().ok_or(USAGE)?)
}

fn compare(args: &[String]) -> Result<(), String> {
    let states = args.first().is_some_and(|arg| arg == "--states");
    let rest = &args[states as usize..];
    compare::compare(program(rest)?, number(rest, 1)?, number(rest, 2)?, Options { marks: false, states })
}

fn list(args: &[String]) -> Result<(), String> {
    let files = args.get(2..).unwrap_or(&[]);
    let sheets: Result<Vec<String>, String> = files.iter().map(|file| input_text(Some(file))).collect();
    output(&list::list(&sheets?, number(args, 0)?, number(args, 1)?)?)
}

fn perform(args: &[String]) -> Result<(), String> {
    let rest = args.get(1..).unwrap_or(&[]);
    match args.first().map(String::as_str) {
        None => run(&[]),
        Some("run") => run(rest),
        Some("text") => to_text(rest),
        Some("bytes") => to_bytes(rest),
        Some("sheet") => sheets(rest),
        Some("faults") => output(faults::faults().as_bytes()),
        Some("make") => output(&generate::generate(number(rest, 0)?)),
        Some("count") => compare::count(number(rest, 0)?, number(rest, 1)?),
        Some("compare") => compare(rest),
        Some("list") => list(rest),
        #[cfg(feature = "ours")]
        Some("agree") => ours::agree(number(rest, 0)?, number(rest, 1)?),
        #[cfg(feature = "ours")]
        Some("bench") => {
            bench::bench();
            Ok(())
        }
        Some("shrink") => compare::shrink(program(rest)?, number(rest, 1)?),
        _ => Err(USAGE.to_string()),
    }
}

fn main() -> ExitCode {
    drive::quiet();
    let args: Vec<String> = std::env::args().skip(1).collect();
    match perform(&args) {
        Ok(()) => ExitCode::SUCCESS,
        Err(told) => {
            eprintln!("{told}");
            ExitCode::FAILURE
        }
    }
}
