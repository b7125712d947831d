//! Steps of all kinds, and whole proofs.
use crate::context::Context;
use crate::processing::CheckedProofStep;
use crate::CheckerError;
use anyhow::Error;
use std::io::{self, ErrorKind};
use varisat_internal_proof::binary_format::Parser;
use varisat_internal_proof::ProofStep;

impl Context<'_> {
    /// Counts a step and checks it.
    pub fn check_step(&mut self, step: ProofStep) -> Result<(), CheckerError> {
        self.begin()?;
        self.step += 1;
        let outcome = self.check_kind(step);
        match (outcome, step) {
            (outcome, ProofStep::UserVarName { .. } | ProofStep::Assumptions { .. }) => outcome,
            (Err(CheckerError::CheckFailed { step: number, msg, .. }), _) => {
                Err(CheckerError::CheckFailed { step: number, msg, debug_step: format!("{step:?}") })
            }
            (outcome, _) => outcome,
        }
    }

    fn check_kind(&mut self, step: ProofStep) -> Result<(), CheckerError> {
        match step {
            ProofStep::SolverVarName { global, solver } => self.store.hasher.rename(global, solver),
            ProofStep::UserVarName { global, user } => return self.check_user_var(global, user),
            ProofStep::DeleteVar { var } => return self.check_delete_var(var),
            ProofStep::ChangeSamplingMode { var, sample } => return self.check_mode(var, sample),
            ProofStep::AddClause { clause } => return self.add_clause(clause),
            ProofStep::AtClause { redundant, clause, propagation_hashes } => {
                return self.check_lemma(redundant, clause, propagation_hashes)
            }
            ProofStep::UnitClauses { units } => return self.check_units(units),
            ProofStep::DeleteClause { clause, proof } => return self.check_deletion(clause, proof),
            ProofStep::ChangeHashBits { bits } => return self.check_width(bits),
            ProofStep::Model { assignment } => return self.check_model(assignment),
            ProofStep::Assumptions { assumptions } => return self.check_assumptions(assumptions),
            ProofStep::FailedAssumptions { failed_core, propagation_hashes } => {
                return self.check_core(failed_core, propagation_hashes)
            }
            ProofStep::End => self.has_ended = true,
        }
        Ok(())
    }

    fn check_width(&mut self, bits: u32) -> Result<(), CheckerError> {
        if !(1..=64).contains(&bits) {
            return Err(self.rejected("hash width out of range".to_owned()));
        }
        self.store.hasher.set_width(bits);
        self.store.rehash();
        Ok(())
    }

    /// Checks a proof, unless the end of one was accepted.
    pub fn check_proof(&mut self, input: impl io::Read) -> Result<(), CheckerError> {
        self.begin()?;
        let mut source = io::BufReader::new(input);
        let mut parser = Parser::default();
        while !self.has_ended {
            match parser.parse_step(&mut source) {
                Ok(step) => self.check_step(step)?,
                Err(fault) => return Err(self.unread(fault)),
            }
        }
        self.close_conflict()
    }

    /// Counts a step that was not read.
    fn unread(&mut self, fault: Error) -> CheckerError {
        self.step += 1;
        let step = self.step;
        match fault.downcast::<io::Error>() {
            Ok(cause) if cause.kind() == ErrorKind::UnexpectedEof => CheckerError::ProofIncomplete { step },
            Ok(cause) => CheckerError::IoError { step, cause },
            Err(cause) => CheckerError::ParseError { step, cause },
        }
    }

    /// Gives processors the empty clause, if two opposite unit clauses were stored.
    pub fn close_conflict(&mut self) -> Result<(), CheckerError> {
        self.begin()?;
        let conflict = match self.store.conflict {
            Some(conflict) => conflict,
            None => return Ok(()),
        };
        let id = self.store.take_id();
        self.emit(&CheckedProofStep::AtClause { id, redundant: false, clause: &[], propagations: &conflict })
    }
}
