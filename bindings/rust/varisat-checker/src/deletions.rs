//! Deletions of clauses.
use crate::context::Context;
use crate::processing::CheckedProofStep;
use crate::sorted_lits::canonical;
use crate::store::Deleted;
use crate::CheckerError;
use cefindrato::checker as library;
use library::{CheckCause, ProofStep};
use varisat_formula::Lit;
use varisat_internal_proof::DeleteClauseProof;

impl Context<'_> {
    /// Checks the deletion of a clause.
    pub fn check_deletion(&mut self, clause: &[Lit], proof: DeleteClauseProof) -> Result<(), CheckerError> {
        let (lits, is_tautology) = canonical(clause);
        if is_tautology {
            return Err(self.rejected(format!("clause {lits:?} is a tautology")));
        }
        let numbered = self.numbered(&lits)?;
        let mut is_justified = true;
        let step = ProofStep::DeleteClause { clause: &numbered, proof: library_proof(proof) };
        let outcome = self.judge(step, |context, cause| {
            is_justified = !matches!(cause, CheckCause::NotSatisfied | CheckCause::NotSubsumed);
            context.text_of_deletion(cause, clause, &lits)
        });
        let previous = if is_justified { self.previous.take() } else { None };
        outcome?;
        let reason = match proof {
            DeleteClauseProof::Redundant => None,
            DeleteClauseProof::Satisfied => lits.iter().find_map(|&lit| self.store.unit_of(lit)),
            DeleteClauseProof::Simplified => previous.map(|(id, _)| id),
        };
        let (id, deleted) = self
            .store
            .delete(&lits, &numbered, reason.is_none())
            .expect("the library deletes a clause that is not here");
        match (reason, deleted) {
            (_, Deleted::Unchanged) => Ok(()),
            (None, _) => self.emit(&CheckedProofStep::DeleteClause { id, clause: &lits }),
            (Some(reason), _) => self.emit(&CheckedProofStep::DeleteAtClause {
                id,
                keep_as_redundant: deleted == Deleted::NewlyRedundant,
                clause: &lits,
                propagations: &[reason],
            }),
        }
    }

    fn text_of_deletion(&self, cause: CheckCause, clause: &[Lit], lits: &[Lit]) -> String {
        let previous = self.previous.as_ref().map_or(&[][..], |(_, lits)| lits);
        match cause {
            CheckCause::NotSatisfied => format!("deleted clause {clause:?} is not satisfied"),
            CheckCause::NotSubsumed => {
                format!("deleted clause {clause:?} is not subsumed by previous clause {previous:?}")
            }
            CheckCause::DeleteUnitOrEmpty => format!("delete of unit or empty clause {lits:?}"),
            CheckCause::DeleteUnknown => format!("delete of unknown clause {lits:?}"),
            CheckCause::DeleteRedundantIsIrredundant => {
                format!("delete of redundant clause {lits:?} which is irredundant")
            }
            CheckCause::DeleteIrredundantIsRedundant => {
                format!("delete of irredundant clause {lits:?} which is redundant")
            }
            _ => cause.to_string(),
        }
    }
}

fn library_proof(proof: DeleteClauseProof) -> library::DeleteClauseProof {
    match proof {
        DeleteClauseProof::Redundant => library::DeleteClauseProof::Redundant,
        DeleteClauseProof::Satisfied => library::DeleteClauseProof::Satisfied,
        DeleteClauseProof::Simplified => library::DeleteClauseProof::Simplified,
    }
}
