//! Checks proofs of a formula, CNF and then any number of PROOF: what each shows, a line each. Of a refutation the steps are written
//! as LRAT to PROOF.lrat, and the checker of LRAT proofs must accept them.
use anyhow::Error;
use std::env;
use std::fmt::Write;
use std::fs::{self, File};
use varisat_checker::{CheckedProofStep, Checker, CheckerData, ProofProcessor};
use varisat_formula::Lit;

/// The steps as LRAT text.
#[derive(Default)]
struct Lrat {
    text: String,
    /// The number of the last clause that was added.
    last: Option<u64>,
    /// How many input clauses came.
    inputs: u64,
    /// How many of the formula come, up to unsatisfiability.
    of_formula: u64,
    /// How many clauses the formula has.
    announced: u64,
}

impl Lrat {
    /// Ids count from 0, and those of the formula's clauses come first.
    fn number(&self, id: u64) -> u64 {
        id + 1 + if id < self.of_formula { 0 } else { self.announced }
    }

    fn lemma(&mut self, id: u64, clause: &[Lit], propagations: &[u64]) -> Result<(), Error> {
        let number = self.number(id);
        let lits: String = clause.iter().map(|lit| format!("{lit} ")).collect();
        let hints: String = propagations.iter().map(|id| format!("{} ", self.number(*id))).collect();
        writeln!(self.text, "{number} {lits}0 {hints}0")?;
        self.last = Some(number);
        Ok(())
    }
}

impl ProofProcessor for Lrat {
    fn process_step(&mut self, step: &CheckedProofStep, _: CheckerData) -> Result<(), Error> {
        match *step {
            CheckedProofStep::AtClause { id, clause, propagations, .. } => self.lemma(id, clause, propagations)?,
            CheckedProofStep::DeleteClause { id, .. }
            | CheckedProofStep::DeleteAtClause { id, keep_as_redundant: false, .. }
            | CheckedProofStep::DeleteRatClause { id, .. } => {
                writeln!(self.text, "{} d {} 0", self.last.unwrap_or(self.announced), self.number(id))?
            }
            CheckedProofStep::AddClause { .. }
            | CheckedProofStep::DuplicatedClause { .. }
            | CheckedProofStep::TautologicalClause { .. } => self.inputs += 1,
            _ => (),
        }
        Ok(())
    }
}

/// A checker that gives steps to a processor, with the clauses of a text.
fn begun<'a>(lrat: &'a mut Lrat, text: &str) -> Result<Checker<'a>, Error> {
    let mut checker = Checker::new();
    checker.add_processor(lrat);
    checker.add_dimacs_cnf(text.as_bytes())?;
    Ok(checker)
}

/// What a proof shows.
fn line_of(cnf: &str, proof: &str) -> Result<String, Error> {
    let text = fs::read_to_string(cnf)?;
    let announced = text.split_whitespace().filter(|word| *word == "0").count() as u64;
    let mut formula = Lrat::default();
    drop(begun(&mut formula, &text)?);
    let mut lrat = Lrat { of_formula: formula.inputs, announced, ..Lrat::default() };
    let mut checker = begun(&mut lrat, &text)?;
    let outcome = checker.check_proof(File::open(proof)?);
    let is_refuted = checker.unsat();
    drop(checker);
    match (outcome, lrat.inputs - formula.inputs) {
        (Err(fault), _) => Ok(fault.to_string()),
        (Ok(()), _) if !is_refuted => Ok("s NOT SHOWN".to_owned()),
        (Ok(()), 0) => {
            fs::write(format!("{proof}.lrat"), &lrat.text)?;
            let verdict = cefindrato::check(text.as_bytes(), lrat.text.as_bytes());
            let is_verified = verdict == Ok(cefindrato::Verdict::Verified);
            Ok(if is_verified { "s UNSATISFIABLE".to_owned() } else { format!("its LRAT text: {verdict:?}") })
        }
        (Ok(()), added) => Ok(format!("s UNSATISFIABLE WITH {added} ADDED CLAUSES")),
    }
}

fn main() -> Result<(), Error> {
    let names: Vec<String> = env::args().skip(1).collect();
    for proof in &names[1..] {
        println!("{}", line_of(&names[0], proof)?);
    }
    Ok(())
}
