//! Checking of single steps, as a solver makes them.
use crate::{Checker, CheckerError};
use varisat_internal_proof::ProofStep;

/// Checks the steps of a proof as they come.
pub trait SelfChecker {
    /// Checks a step.
    fn self_check_step(&mut self, step: ProofStep) -> Result<(), CheckerError>;

    /// Gives processors the empty clause if two opposite unit clauses were added, as the end of a proof does.
    fn self_check_delayed_steps(&mut self) -> Result<(), CheckerError>;
}

impl SelfChecker for Checker<'_> {
    fn self_check_step(&mut self, step: ProofStep) -> Result<(), CheckerError> {
        self.ctx.check_step(step)
    }

    fn self_check_delayed_steps(&mut self) -> Result<(), CheckerError> {
        self.ctx.close_conflict()
    }
}
