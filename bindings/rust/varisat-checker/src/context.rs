//! All that a checker has: the library's checker, and what is kept beside it for processors.
use crate::processing::{CheckedProofStep, CheckerData, Processing};
use crate::sorted_lits::canonical;
use crate::store::{Store, Stored};
use crate::variables::{NoNumber, Variables};
use crate::CheckerError;
use cefindrato::checker as library;
use library::{CheckCause, ProofStep};
use varisat_formula::{Lit, Var};

#[derive(Default)]
pub(crate) struct Context<'a> {
    pub library: library::Checker,
    pub store: Store,
    pub variables: Variables,
    pub processing: Processing<'a>,
    /// How many steps were checked.
    pub step: u64,
    pub has_ended: bool,
    /// Whether a processor failed.
    pub has_failed: bool,
    /// The last irredundant lemma, unless a deletion was checked since.
    pub previous: Option<(u64, Vec<Lit>)>,
    /// Sorted and without repeats.
    pub assumptions: Vec<Lit>,
}

impl Context<'_> {
    pub fn is_unsat(&mut self) -> bool {
        !self.has_failed && self.library.unsat()
    }

    pub fn begin(&self) -> Result<(), CheckerError> {
        if self.has_failed {
            return Err(CheckerError::Failed);
        }
        Ok(())
    }

    /// Why a step or a clause is rejected.
    pub fn rejected(&self, msg: String) -> CheckerError {
        CheckerError::CheckFailed { step: self.step, msg, debug_step: String::new() }
    }

    fn out_of_numbers(&self, _: NoNumber) -> CheckerError {
        self.rejected("no variable left".to_owned())
    }

    /// Makes the variables of literals known.
    pub fn ensure(&mut self, lits: &[Lit]) -> Result<(), CheckerError> {
        let greatest = lits.iter().map(|lit| lit.var()).max_by_key(|var| var.index());
        greatest.map_or(Ok(()), |var| self.ensure_var(var))
    }

    pub fn ensure_var(&mut self, var: Var) -> Result<(), CheckerError> {
        self.variables.ensure(var).map_err(|none| self.out_of_numbers(none))
    }

    /// Gives a variable another number in the library.
    pub fn renew(&mut self, var: Var) -> Result<(), CheckerError> {
        self.variables.renew(var).map_err(|none| self.out_of_numbers(none))?;
        self.store.renumber();
        Ok(())
    }

    /// Literals as the library has them.
    pub fn numbered(&self, lits: &[Lit]) -> Result<Vec<library::Lit>, CheckerError> {
        self.variables.numbered(lits).map_err(|none| self.out_of_numbers(none))
    }

    /// The library's judgement of a step, with a text for each cause.
    pub fn judge(
        &mut self,
        step: ProofStep,
        text: impl FnOnce(&Self, CheckCause) -> String,
    ) -> Result<(), CheckerError> {
        let outcome = self.library.self_check_step(step);
        outcome.map_err(|fault| self.fault_of(fault, text))
    }

    /// The fault of a call of the library, with a text for each cause.
    pub fn fault_of(
        &self,
        fault: library::CheckerError,
        text: impl FnOnce(&Self, CheckCause) -> String,
    ) -> CheckerError {
        match fault {
            library::CheckerError::CheckFailed { msg, .. } => self.rejected(text(self, msg)),
            library::CheckerError::OutOfMemory => CheckerError::OutOfMemory,
            _ => CheckerError::Failed,
        }
    }

    /// Rejects literals of a variable over which models are not sampled.
    pub fn require_sampled(&self, lits: &[Lit]) -> Result<(), CheckerError> {
        match lits.iter().map(|lit| lit.var()).find(|var| !self.variables.is_sampled(*var)) {
            Some(var) => Err(self.rejected(format!("variable {var:?} is not a sampling variable"))),
            None => Ok(()),
        }
    }

    /// Gives an accepted step to the processors.
    pub fn emit(&mut self, step: &CheckedProofStep) -> Result<(), CheckerError> {
        let outcome = self.processing.step(step, CheckerData::new(&self.variables));
        self.has_failed = outcome.is_err();
        outcome
    }

    /// Adds a clause of the formula.
    pub fn add_clause(&mut self, clause: &[Lit]) -> Result<(), CheckerError> {
        self.begin()?;
        if self.is_unsat() {
            return Ok(());
        }
        let (lits, is_tautology) = canonical(clause);
        self.require_sampled(&lits)?;
        self.ensure(&lits)?;
        let numbered = self.numbered(&lits)?;
        let outcome = self.library.add_clause(&numbered);
        outcome.map_err(|fault| self.fault_of(fault, |_, cause| cause.to_string()))?;
        if is_tautology {
            let id = self.store.take_id();
            return self.emit(&CheckedProofStep::TautologicalClause { id, clause: &lits });
        }
        match self.store.add(&lits, &numbered, false) {
            (id, Stored::New) => self.emit(&CheckedProofStep::AddClause { id, clause: &lits }),
            (id, Stored::Duplicate) => self.emit_duplicated(id, &lits),
            (id, Stored::NewlyIrredundant) => {
                self.emit(&CheckedProofStep::MakeIrredundant { id, clause: &lits })?;
                self.emit_duplicated(id, &lits)
            }
        }
    }

    fn emit_duplicated(&mut self, same_as_id: u64, clause: &[Lit]) -> Result<(), CheckerError> {
        let id = self.store.take_id();
        self.emit(&CheckedProofStep::DuplicatedClause { id, same_as_id, clause })
    }
}
