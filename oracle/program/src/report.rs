//! The program's output for a script, as document 01 has it; with marks (who gave an answer) and the states if asked.
use crate::drive::{start, Answer, By, Run};
use crate::script::{read, Script};
use crate::view::Facts;

#[derive(Clone, Copy, Default)]
pub struct Options {
    pub marks: bool,
    pub states: bool,
}

struct Report {
    options: Options,
    text: String,
    totals: [usize; 3],
    facts: Facts,
}

impl Report {
    fn answer(&mut self, lead: &str, answer: Answer, run: Option<&Run>) {
        let len = run.map_or(0, |run| run.system.network.len());
        self.text += &format!("{lead}{} {len}", answer.number);
        if self.options.marks {
            self.text += if answer.by == By::Rust { " rust" } else { " ours" };
        }
        self.text += "\n";
        if self.options.states {
            match run {
                None => self.text += "  blank\n",
                Some(run) => self.facts.tell(&run.system, &mut self.text),
            }
        }
    }

    /// `seen` is shown the system after each answer.
    fn run(&mut self, script: &Script, seen: &mut dyn FnMut(Option<&Run>)) {
        match start(script) {
            Err(answer) => {
                self.answer("start ", answer, None);
                seen(None);
            }
            Ok(mut run) => {
                self.answer("start ", Answer { number: 0, by: By::Rust }, Some(&run));
                seen(Some(&run));
                for action in &script.actions {
                    let answer = run.step(action);
                    self.totals[answer.number.min(2) as usize] += 1;
                    self.answer("", answer, Some(&run));
                    seen(Some(&run));
                }
            }
        }
        let [next, ignored, refused] = self.totals;
        self.text += &format!("done {next} {ignored} {refused}\n");
    }
}

fn reported(bytes: &[u8], options: Options, seen: &mut dyn FnMut(Option<&Run>)) -> String {
    let mut report = Report { options, text: String::new(), totals: [0; 3], facts: Facts::default() };
    match read(bytes) {
        Err(place) => format!("bad {place}\n"),
        Ok(script) => {
            report.run(&script, seen);
            report.text
        }
    }
}

pub fn report(bytes: &[u8], options: Options) -> String {
    reported(bytes, options, &mut |_| ())
}

/// The plain output; the systems are shown as they come.
#[cfg(feature = "ours")]
pub fn report_with(bytes: &[u8], seen: &mut dyn FnMut(Option<&Run>)) -> String {
    reported(bytes, Options::default(), seen)
}
