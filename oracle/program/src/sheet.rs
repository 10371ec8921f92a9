//! Checks a written sheet: a script in words, with what is expected between its lines. `= LINE` is the next line of
//! the output; `: FACT` is a line that the state must have there, behind the one named before; `! FACT` one that it
//! must not have.
use crate::report::{report, Options};
use crate::script::write;
use crate::text::parse;

/// The output's lines, each with the facts of the state that it leaves.
fn grouped(output: &str) -> Vec<(String, Vec<String>)> {
    let mut groups: Vec<(String, Vec<String>)> = Vec::new();
    for line in output.lines() {
        match (line.strip_prefix("  "), groups.last_mut()) {
            (Some(fact), Some(group)) => group.1.push(fact.to_string()),
            _ => groups.push((line.to_string(), Vec::new())),
        }
    }
    groups
}

fn expects(line: &&str) -> bool {
    line.starts_with(['=', ':', '!'])
}

/// The script in words, without what is expected.
pub fn words(sheet: &str) -> String {
    sheet.lines().filter(|line| !expects(line)).map(|line| format!("{line}\n")).collect()
}

pub fn check(sheet: &str) -> Result<usize, String> {
    let output = report(&write(&parse(&words(sheet))?), Options { marks: false, states: true });
    let groups = grouped(&output);
    let (mut at, mut seen) = (0, 0);
    for line in sheet.lines().filter(expects) {
        let wanted = line[1..].trim();
        if line.starts_with('=') {
            let given = groups.get(at).map_or("nothing", |group| &group.0);
            if given != wanted {
                return Err(format!("line {} of the output: wanted `{wanted}`, given `{given}`", at + 1));
            }
            (at, seen) = (at + 1, 0);
        } else {
            seen = fact(line, wanted, &groups[at.max(1) - 1].1, seen)?;
        }
    }
    if at == groups.len() {
        Ok(at)
    } else {
        Err(format!("the output has {} lines, {at} were expected", groups.len()))
    }
}

/// How many facts are passed after this one.
fn fact(line: &str, wanted: &str, facts: &[String], seen: usize) -> Result<usize, String> {
    let later = facts[seen..].iter().position(|fact| fact == wanted);
    match later {
        Some(place) if line.starts_with(':') => Ok(seen + place + 1),
        None if line.starts_with('!') && !facts.iter().any(|fact| fact == wanted) => Ok(seen),
        _ => Err(format!("`{line}` does not hold of\n{}", facts.join("\n"))),
    }
}
