//! Lemmas and derived unit clauses.
use crate::context::Context;
use crate::processing::CheckedProofStep;
use crate::propagation::propagations;
use crate::sorted_lits::canonical;
use crate::store::Stored;
use crate::CheckerError;
use cefindrato::checker::{CheckCause, ProofStep};
use varisat_formula::Lit;
use varisat_internal_proof::ClauseHash;

impl Context<'_> {
    /// Checks a lemma.
    pub fn check_lemma(&mut self, redundant: bool, clause: &[Lit], hashes: &[ClauseHash]) -> Result<(), CheckerError> {
        let (lits, is_tautology) = canonical(clause);
        if is_tautology {
            return Err(self.rejected(format!("clause {lits:?} is a tautology")));
        }
        self.prepare_check(&lits)?;
        let numbered = self.numbered(&lits)?;
        let propagation_hashes = &self.store.library_hashes(hashes);
        let step = ProofStep::AtClause { redundant, clause: &numbered, propagation_hashes };
        self.judge(step, |context, cause| context.text_of_check(cause, &lits, hashes))?;
        let propagations = self.propagations(&lits, propagation_hashes);
        let (id, stored) = self.store.add(&lits, &numbered, redundant);
        if !redundant {
            self.previous = Some((id, lits.clone()));
        }
        match stored {
            Stored::New => {
                let propagations = &propagations;
                self.emit(&CheckedProofStep::AtClause { id, redundant, clause: &lits, propagations })
            }
            Stored::NewlyIrredundant => self.emit(&CheckedProofStep::MakeIrredundant { id, clause: &lits }),
            Stored::Duplicate => Ok(()),
        }
    }

    /// Checks derived unit clauses, each for itself.
    ///
    /// The library has no such step. A redundant lemma is one, for a unit clause: it is stored for good, and does not stand between
    /// an irredundant lemma and a deletion.
    pub fn check_units(&mut self, units: &[(Lit, ClauseHash)]) -> Result<(), CheckerError> {
        units.iter().try_for_each(|&(lit, hash)| self.check_unit(lit, hash))
    }

    fn check_unit(&mut self, lit: Lit, hash: ClauseHash) -> Result<(), CheckerError> {
        let clause = &[lit];
        self.prepare_check(clause)?;
        let propagation_hashes = &self.store.library_hashes(&[hash]);
        let step = ProofStep::AtClause { redundant: true, clause: &self.numbered(clause)?, propagation_hashes };
        self.judge(step, |context, cause| context.text_of_check(cause, clause, &[hash]))?;
        let propagations = &self.propagations(clause, propagation_hashes);
        match self.store.add_unit(lit) {
            (id, Stored::New) => self.emit(&CheckedProofStep::AtClause { id, redundant: false, clause, propagations }),
            _ => Ok(()),
        }
    }

    /// Applies names that wait, and makes the variables of a clause known.
    pub fn prepare_check(&mut self, lits: &[Lit]) -> Result<(), CheckerError> {
        if self.store.hasher.has_new_name() {
            self.store.rehash();
        }
        self.ensure(lits)
    }

    /// Why the check of a clause was rejected.
    pub fn text_of_check(&self, cause: CheckCause, lits: &[Lit], hashes: &[ClauseHash]) -> String {
        let unnamed = hashes.iter().find(|hash| !self.store.is_named(**hash));
        match (cause, unnamed) {
            (CheckCause::NoClauseForHash, Some(hash)) => format!("no clause found for hash {hash:x}"),
            (CheckCause::AtCheckFailed, _) => format!("AT check failed for {lits:?}"),
            _ => cause.to_string(),
        }
    }

    /// The clauses that propagate in a check that the library accepted, if a processor wants them.
    pub fn propagations(&self, lits: &[Lit], library_hashes: &[ClauseHash]) -> Vec<u64> {
        if self.processing.processors.is_empty() {
            return Vec::new();
        }
        let found = propagations(&self.store, lits, library_hashes);
        found.expect("the library accepts a check that leads to no conflict here")
    }
}
