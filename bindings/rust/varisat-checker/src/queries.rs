//! Models, assumptions, and cores of them that fail.
use crate::context::Context;
use crate::processing::CheckedProofStep;
use crate::sorted_lits::canonical;
use crate::CheckerError;
use cefindrato::checker::{CheckCause, ProofStep};
use std::collections::HashSet;
use varisat_formula::Lit;
use varisat_internal_proof::ClauseHash;

impl Context<'_> {
    /// Checks a model.
    pub fn check_model(&mut self, assignment: &[Lit]) -> Result<(), CheckerError> {
        self.tell_variables()?;
        let numbered = &self.numbered(assignment)?;
        let step = ProofStep::Model { assignment: numbered };
        self.judge(step, |context, cause| context.text_of_model(cause, assignment))?;
        self.emit(&CheckedProofStep::Model { assignment })
    }

    /// Makes all variables that are known here known to the library, by a tautology.
    fn tell_variables(&mut self) -> Result<(), CheckerError> {
        let outcome = self.variables.greatest().map_or(Ok(()), |tautology| self.library.add_clause(&tautology));
        outcome.map_err(|fault| self.fault_of(fault, |_, cause| cause.to_string()))
    }

    fn text_of_model(&self, cause: CheckCause, assignment: &[Lit]) -> String {
        let lits: HashSet<Lit> = assignment.iter().copied().collect();
        let fails_unit = |lit: &&Lit| self.store.unit_of(!**lit).is_some();
        let is_missed = |lits_of: &[Lit]| !lits_of.iter().any(|lit| lits.contains(lit));
        match cause {
            CheckCause::ModelAgainstUnit => assignment
                .iter()
                .find(fails_unit)
                .map(|&lit| format!("model assignment conflicts with unit clause {:?}", !lit)),
            CheckCause::ModelAgainstItself => assignment
                .iter()
                .enumerate()
                .find(|(before, lit)| assignment[..*before].contains(&!**lit))
                .map(|(_, &lit)| format!("model contains conflicting assignment {:?}", !lit)),
            CheckCause::ModelMissesAssumption => self
                .assumptions
                .iter()
                .find(|lit| !lits.contains(lit))
                .map(|lit| format!("model does not contain assumption {lit:?}")),
            CheckCause::ModelMissesClause => self
                .store
                .clauses()
                .find(|clause| is_missed(&clause.lits))
                .map(|clause| format!("model does not satisfy clause {:?}", clause.lits)),
            _ => None,
        }
        .unwrap_or_else(|| cause.to_string())
    }

    /// Checks assumptions.
    pub fn check_assumptions(&mut self, assumptions: &[Lit]) -> Result<(), CheckerError> {
        self.require_sampled(assumptions)?;
        self.ensure(assumptions)?;
        let (lits, _) = canonical(assumptions);
        let numbered = &self.numbered(&lits)?;
        self.judge(ProofStep::Assumptions { assumptions: numbered }, |_, cause| cause.to_string())?;
        self.assumptions = lits.clone();
        self.emit(&CheckedProofStep::Assumptions { assumptions: &lits })
    }

    /// Checks a core of the assumptions that fails.
    pub fn check_core(&mut self, failed_core: &[Lit], hashes: &[ClauseHash]) -> Result<(), CheckerError> {
        let (core, is_opposite) = canonical(failed_core);
        if !core.iter().all(|lit| self.assumptions.binary_search(lit).is_ok()) {
            return Err(self.rejected(CheckCause::NotAssumed.to_string()));
        }
        if core.iter().any(|lit| self.variables.user_var(lit.var()).is_none()) {
            return Err(self.rejected("failed core contains hidden variable".to_owned()));
        }
        let negated: Vec<Lit> = core.iter().map(|&lit| !lit).collect();
        if !is_opposite {
            self.prepare_check(&negated)?;
        }
        let propagation_hashes = &self.store.library_hashes(hashes);
        let step = ProofStep::FailedAssumptions { failed_core: &self.numbered(&core)?, propagation_hashes };
        self.judge(step, |context, cause| context.text_of_check(cause, &negated, hashes))?;
        let propagations = if is_opposite { Vec::new() } else { self.propagations(&negated, propagation_hashes) };
        self.emit(&CheckedProofStep::FailedAssumptions { failed_core: &core, propagations: &propagations })
    }
}
