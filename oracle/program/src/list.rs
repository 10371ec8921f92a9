//! A list of scripts with what the oracle writes for them, for a program that replays it where no Rust is at hand. Each part of
//! it, a script or an output, has its length in front, four bytes, most significant first.
use crate::generate::generate;
use crate::report::{report, Options};
use crate::script::write;
use crate::sheet::words;
use crate::text::parse;

/// Longer scripts of seeds are left out: many short ones say more in the same room.
const LONGEST: usize = 700;

/// But 32 pending messages or 128 entries take a longer script.
const LONGEST_FULL: usize = 2500;

fn part(list: &mut Vec<u8>, bytes: &[u8]) {
    list.extend((bytes.len() as u32).to_be_bytes());
    list.extend(bytes);
}

/// Whether something was full: an answer 7 or 8.
fn full(output: &str) -> bool {
    let answers = output.lines().map(|line| line.trim_start_matches("start "));
    answers.filter_map(|line| line.split(' ').next()).any(|answer| answer == "7" || answer == "8")
}

fn pair(list: &mut Vec<u8>, script: &[u8], output: &str) {
    part(list, script);
    part(list, output.as_bytes());
}

/// The scripts of the sheets come first, then those of the seeds.
pub fn list(sheets: &[String], first: u64, count: u64) -> Result<Vec<u8>, String> {
    let mut list = Vec::new();
    for sheet in sheets {
        let script = write(&parse(&words(sheet))?);
        pair(&mut list, &script, &report(&script, Options::default()));
    }
    for script in (first..first + count).map(generate).filter(|script| script.len() <= LONGEST_FULL) {
        let output = report(&script, Options::default());
        if script.len() <= LONGEST || full(&output) {
            pair(&mut list, &script, &output);
        }
    }
    Ok(list)
}
