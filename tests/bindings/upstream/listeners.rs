//! Processors and transcripts, by the kinds that scripts name; steps as lines.
use crate::calls::Made;
use anyhow::{bail, Error};
use std::cell::RefCell;
use std::mem::take;
use std::rc::Rc;
use varisat_checker::{
    CheckedProofStep, CheckedSamplingMode, CheckedUserVar, Checker, CheckerData, ProofProcessor,
    ProofTranscriptProcessor, ProofTranscriptStep,
};
use varisat_formula::Lit;

#[derive(Clone, Copy, PartialEq)]
pub enum Place {
    Processor,
    Transcript,
}

#[derive(Clone, Copy)]
enum Kind {
    List,
    Names,
    Tally,
    /// Fails after this many steps.
    Faulty(u64),
}

/// What a processor or a transcript shows.
type Output = Rc<RefCell<String>>;

struct Listener {
    kind: Kind,
    output: Output,
}

impl Listener {
    fn take(&mut self, line: String, names: String) -> Result<(), Error> {
        let shown = match &mut self.kind {
            Kind::List => format!("{line}\n"),
            Kind::Names => names,
            Kind::Tally => "|".to_owned(),
            Kind::Faulty(0) => bail!("the planned fault"),
            Kind::Faulty(left) => {
                *left -= 1;
                String::new()
            }
        };
        self.output.borrow_mut().push_str(&shown);
        Ok(())
    }
}

impl ProofProcessor for Listener {
    fn process_step(&mut self, step: &CheckedProofStep, data: CheckerData) -> Result<(), Error> {
        self.take(step_line(step), name_line(step, data))
    }
}

impl ProofTranscriptProcessor for Listener {
    fn process_step(&mut self, step: &ProofTranscriptStep) -> Result<(), Error> {
        self.take(transcript_line(step), String::new())
    }
}

#[derive(Default)]
pub struct Listeners {
    outputs: Vec<(Place, Output)>,
}

impl Listeners {
    /// Adds listeners of these kinds, which bars divide; none where upstream has no such kind.
    pub fn add(&mut self, checker: &mut Checker<'static>, place: Place, kinds: &str) -> Made {
        let of_name = |name: &str| match name.split_once(' ').unwrap_or((name, "")) {
            ("list", _) => Some(Kind::List),
            ("names", _) => Some(Kind::Names),
            ("tally", _) => Some(Kind::Tally),
            ("faulty", "never") => Some(Kind::Faulty(u64::MAX)),
            ("faulty", steps) => steps.parse().ok().map(Kind::Faulty),
            _ => None,
        };
        let kinds: Vec<Kind> = match kinds.split('|').map(of_name).collect() {
            Some(kinds) => kinds,
            None => return Made::Elsewhere,
        };
        for kind in kinds {
            let output = Output::default();
            self.outputs.push((place, output.clone()));
            let listener = Box::leak(Box::new(Listener { kind, output }));
            match place {
                Place::Processor => checker.add_processor(listener),
                Place::Transcript => checker.add_transcript(listener),
            }
        }
        Made::Text("Ok".to_owned())
    }

    /// What those of a place show, with bars for the ends of lines.
    pub fn shown(&self, place: Place) -> String {
        let of_place = self.outputs.iter().filter(|(one, _)| *one == place);
        let shown = |(_, output): &(Place, Output)| match &*output.borrow() {
            text if text.is_empty() => "-".to_owned(),
            text => text.replace('\n', "|"),
        };
        of_place.map(shown).collect::<Vec<_>>().join(" / ")
    }

    /// The lines of the lists since the last call, as scripts have them.
    pub fn taken(&self) -> String {
        let marked = |(place, output): &(Place, Output)| {
            let mark = if *place == Place::Processor { '+' } else { '~' };
            take(&mut *output.borrow_mut()).lines().map(|line| format!("{mark} {line}\n")).collect::<String>()
        };
        self.outputs.iter().map(marked).collect()
    }
}

fn lits(lits: &[Lit]) -> String {
    format!("[{}]", lits.iter().map(Lit::to_string).collect::<Vec<_>>().join(" "))
}

fn ids(ids: &[u64]) -> String {
    format!("({})", ids.iter().map(u64::to_string).collect::<Vec<_>>().join(" "))
}

fn step_line(step: &CheckedProofStep) -> String {
    let kept = |keep| if keep { "keep" } else { "gone" };
    match *step {
        CheckedProofStep::UserVar { var, ref user_var } => format!("UserVar {var} {}", user_var_text(user_var)),
        CheckedProofStep::AddClause { id, clause } => format!("AddClause {id} {}", lits(clause)),
        CheckedProofStep::DuplicatedClause { id, same_as_id, clause } => {
            format!("DuplicatedClause {id} same {same_as_id} {}", lits(clause))
        }
        CheckedProofStep::TautologicalClause { id, clause } => format!("TautologicalClause {id} {}", lits(clause)),
        CheckedProofStep::AtClause { id, redundant, clause, propagations } => {
            let kind = if redundant { "red" } else { "irr" };
            format!("AtClause {id} {kind} {} {}", lits(clause), ids(propagations))
        }
        CheckedProofStep::DeleteClause { id, clause } => format!("DeleteClause {id} {}", lits(clause)),
        CheckedProofStep::DeleteAtClause { id, keep_as_redundant, clause, propagations } => {
            format!("DeleteAtClause {id} {} {} {}", kept(keep_as_redundant), lits(clause), ids(propagations))
        }
        CheckedProofStep::DeleteRatClause { id, keep_as_redundant, clause, pivot, propagations: _ } => {
            format!("DeleteRatClause {id} {} {} pivot {pivot}", kept(keep_as_redundant), lits(clause))
        }
        CheckedProofStep::MakeIrredundant { id, clause } => format!("MakeIrredundant {id} {}", lits(clause)),
        CheckedProofStep::Model { assignment } => format!("Model {}", lits(assignment)),
        CheckedProofStep::Assumptions { assumptions } => format!("Assumptions {}", lits(assumptions)),
        CheckedProofStep::FailedAssumptions { failed_core, propagations } => {
            format!("FailedAssumptions {} {}", lits(failed_core), ids(propagations))
        }
    }
}

fn user_var_text(user_var: &Option<CheckedUserVar>) -> String {
    let named = match user_var {
        Some(named) => named,
        None => return "none".to_owned(),
    };
    let mode = match named.sampling_mode {
        CheckedSamplingMode::Sample => "Sample",
        CheckedSamplingMode::Witness => "Witness",
    };
    format!("-> {} {mode} {}", named.user_var, if named.new_var { "new" } else { "changed" })
}

fn name_line(step: &CheckedProofStep, data: CheckerData) -> String {
    let var = match step {
        CheckedProofStep::UserVar { var, .. } => *var,
        CheckedProofStep::DeleteRatClause { pivot, .. } => pivot.var(),
        _ => return String::new(),
    };
    match data.user_from_proof_var(var) {
        Some(name) => format!("{var} is {name}\n"),
        None => format!("{var} is hidden\n"),
    }
}

fn transcript_line(step: &ProofTranscriptStep) -> String {
    match *step {
        ProofTranscriptStep::WitnessVar { var } => format!("WitnessVar {var}"),
        ProofTranscriptStep::SampleVar { var } => format!("SampleVar {var}"),
        ProofTranscriptStep::HideVar { var } => format!("HideVar {var}"),
        ProofTranscriptStep::ObserveInternalVar { var } => format!("ObserveInternalVar {var}"),
        ProofTranscriptStep::AddClause { clause } => format!("AddClause {}", lits(clause)),
        ProofTranscriptStep::Unsat => "Unsat".to_owned(),
        ProofTranscriptStep::Model { assignment } => format!("Model {}", lits(assignment)),
        ProofTranscriptStep::Assume { assumptions } => format!("Assume {}", lits(assumptions)),
        ProofTranscriptStep::FailedAssumptions { failed_core } => format!("FailedAssumptions {}", lits(failed_core)),
    }
}
