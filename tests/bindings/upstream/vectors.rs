//! Plays scripts of calls, with the results and steps that the proved checker with processors has for them: the crate over the
//! library, which has no processors, must give the same.
//!
//! Each operand is a script of `crates/check_vectors/data`, whose `crates/check_vectors/src/script.rt` has the grammar. Scripts
//! over the parts of a checker, and calls that upstream does not have, are left out.
mod answers;
mod calls;
mod listeners;

use calls::{make, Made};
use listeners::{Listeners, Place};
use std::env;
use std::fs;
use std::process::ExitCode;
use varisat_checker::Checker;

/// In the place of `new` or `bare`, where what follows is left out.
const LEFT_OUT: &str = "left out";

/// A checker with what listens to it, and the calls that were made of it.
struct Played {
    checker: Checker<'static>,
    listeners: Listeners,
    lines: Vec<String>,
}

impl Played {
    fn begun(first: &str) -> Played {
        let mut played =
            Played { checker: Checker::new(), listeners: Listeners::default(), lines: vec![first.to_owned()] };
        if first == "new" {
            played.listeners.add(&mut played.checker, Place::Processor, "list");
            played.listeners.add(&mut played.checker, Place::Transcript, "list");
        }
        played
    }

    fn of(lines: &[String]) -> Played {
        let mut played = Played::begun(&lines[0]);
        for line in &lines[1..] {
            played.call(line);
        }
        played
    }

    /// What a line gives, and the steps that it delivers.
    fn call(&mut self, line: &str) -> (Made, String) {
        self.lines.push(line.to_owned());
        let made = match line.split_once(' ').unwrap_or((line, "")) {
            ("processor", kinds) => self.listeners.add(&mut self.checker, Place::Processor, kinds),
            ("transcript", kinds) => self.listeners.add(&mut self.checker, Place::Transcript, kinds),
            ("processors", _) => Made::Text(self.listeners.shown(Place::Processor)),
            ("transcripts", _) => Made::Text(self.listeners.shown(Place::Transcript)),
            _ => make(&mut self.checker, line),
        };
        let is_new = self.lines[0] == "new";
        (made, if is_new { self.listeners.taken() } else { String::new() })
    }
}

/// A call of a script, with the result and the steps that are expected.
struct Expected<'s> {
    number: usize,
    call: &'s str,
    answer: &'s str,
    steps: String,
}

fn expected<'s>(lines: &[(usize, &'s str)]) -> Expected<'s> {
    let (number, line) = lines[0];
    let (call, answer) = line.split_once(" > ").unwrap_or((line, "Ok"));
    let steps = lines[1..].iter().map(|(_, line)| format!("{line}\n")).collect();
    Expected { number, call, answer, steps }
}

#[derive(Default)]
struct Counts {
    calls: usize,
    left_out: usize,
    wrong: usize,
}

/// Plays one script.
fn play(name: &str, script: &str, counts: &mut Counts) {
    let lines: Vec<(usize, &str)> = (1..).zip(script.lines()).filter(|(_, line)| !is_comment(line)).collect();
    let is_step = |line: &str| line.starts_with('+') || line.starts_with('~');
    let mut played = Played::begun("bare");
    let mut here = Vec::new();
    let mut at = 0;
    while at < lines.len() {
        let steps = lines[at + 1..].iter().take_while(|(_, line)| is_step(line)).count();
        let expected = expected(&lines[at..=at + steps]);
        at += 1 + steps;
        match expected.call {
            "new" | "bare" => played = Played::begun(expected.call),
            "here" => here = played.lines.clone(),
            "again" => played = Played::of(&here),
            call if call.starts_with("parts") => played = Played::begun(LEFT_OUT),
            _ if played.lines[0] == LEFT_OUT => counts.left_out += 1,
            _ => compare(name, &mut played, &expected, counts),
        }
    }
}

fn is_comment(line: &str) -> bool {
    line.is_empty() || line.starts_with('#')
}

fn compare(name: &str, played: &mut Played, expected: &Expected, counts: &mut Counts) {
    let (made, steps) = played.call(expected.call);
    let answer = match made {
        Made::Text(answer) => answer,
        Made::Nothing => return counts.left_out += 1,
        Made::Elsewhere => {
            played.lines[0] = LEFT_OUT.to_owned();
            return counts.left_out += 1;
        }
    };
    counts.calls += 1;
    // (scripts do not list the steps of clauses that are given)
    let same_steps = expected.call.starts_with("given") || expected.steps == steps;
    if !same_steps || !answers::agree(expected.call, expected.answer, &answer) {
        counts.wrong += 1;
        println!("{name}:{}: {} > {answer}\n{steps}", expected.number, expected.call);
    }
}

fn main() -> ExitCode {
    let mut counts = Counts::default();
    for name in env::args().skip(1) {
        let script = fs::read_to_string(&name).expect("a script");
        play(&name, &script, &mut counts);
    }
    println!("{} calls, {} left out, {} wrong", counts.calls, counts.left_out, counts.wrong);
    ExitCode::from(u8::from(counts.wrong > 0))
}
