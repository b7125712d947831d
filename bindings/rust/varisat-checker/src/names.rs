//! Names and modes of variables, and deletions of variables.
//!
//! The library has no such steps, as they claim nothing of clauses; they are judged here.
use crate::context::Context;
use crate::processing::{CheckedProofStep, CheckedSamplingMode, CheckedUserVar, ResolutionPropagations};
use crate::variables::SamplingMode;
use crate::CheckerError;
use cefindrato::checker::ProofStep;
use varisat_formula::{Lit, Var};

impl Context<'_> {
    /// Checks a change of a user variable.
    pub fn check_user_var(&mut self, var: Var, user_var: Option<Var>) -> Result<(), CheckerError> {
        self.ensure_var(var)?;
        match user_var {
            Some(user_var) => self.add_user_var(var, user_var),
            None => self.remove_user_var(var),
        }
    }

    fn add_user_var(&mut self, var: Var, user_var: Var) -> Result<(), CheckerError> {
        let (name, mode) = self.name_and_mode(var);
        if !self.variables.is_known(user_var) || self.variables.is_used(user_var) {
            return Err(self.rejected(format!("user name {user_var:?} used for two different variables")));
        }
        if mode == SamplingMode::Hide {
            return Err(self.rejected(format!("user name added to variable {var:?} which is still hidden")));
        }
        if name.is_some() {
            return Err(self.rejected(format!("change of user name for in use variable {var:?}")));
        }
        self.variables.set_name(var, user_var);
        self.emit_user_var(var, user_var, mode, true)
    }

    fn remove_user_var(&mut self, var: Var) -> Result<(), CheckerError> {
        if self.name_and_mode(var).0.is_none() {
            return Err(self.rejected(format!("no user name to remove for variable {var:?}")));
        }
        // (processors see the name that is removed)
        let outcome = self.emit(&CheckedProofStep::UserVar { var, user_var: None });
        self.variables.hide(var);
        outcome
    }

    fn name_and_mode(&self, var: Var) -> (Option<Var>, SamplingMode) {
        let data = self.variables.get(var).expect("a known variable");
        (data.user_var, data.sampling_mode)
    }

    fn emit_user_var(
        &mut self,
        var: Var,
        user_var: Var,
        mode: SamplingMode,
        new_var: bool,
    ) -> Result<(), CheckerError> {
        let sampling_mode = match mode {
            SamplingMode::Witness => CheckedSamplingMode::Witness,
            _ => CheckedSamplingMode::Sample,
        };
        let user_var = Some(CheckedUserVar { user_var, sampling_mode, new_var });
        self.emit(&CheckedProofStep::UserVar { var, user_var })
    }

    /// Checks a change of a mode.
    pub fn check_mode(&mut self, var: Var, sample: bool) -> Result<(), CheckerError> {
        self.ensure_var(var)?;
        let (name, mode) = self.name_and_mode(var);
        let new_mode = if sample { SamplingMode::Sample } else { SamplingMode::Witness };
        if mode == new_mode {
            return Ok(());
        }
        if sample && name.is_none() {
            return Err(self.rejected(format!("cannot sample hidden variable {var:?}")));
        }
        self.variables.set_mode(var, new_mode);
        name.map_or(Ok(()), |user_var| self.emit_user_var(var, user_var, new_mode, false))
    }

    /// Checks the deletion of a variable. Its unit clause goes with it: then the library gets a new variable in its place, since there
    /// unit clauses stay.
    pub fn check_delete_var(&mut self, var: Var) -> Result<(), CheckerError> {
        self.ensure_var(var)?;
        if let Some(user_var) = self.name_and_mode(var).0 {
            return Err(self.rejected(format!("deleted variable {var:?} corresponds to user variable {user_var:?}")));
        }
        if self.store.has(var) {
            return Err(self.rejected(format!("deleted variable {var:?} still has clauses")));
        }
        if let Some(unit) = self.store.unit(var) {
            if self.store.conflict.map_or(false, |[first, _]| first == unit.id) {
                self.close_conflict()?;
                self.store.conflict = None;
            }
            self.renew(var)?;
            self.assume_again(var)?;
            self.emit_deleted_unit(var, unit.id, unit.value)?;
            self.store.remove_unit(var);
        }
        let has_var = |(_, lits): &(u64, Vec<Lit>)| lits.iter().any(|lit| lit.var() == var);
        self.previous = self.previous.take().filter(|previous| !has_var(previous));
        self.variables.set_mode(var, SamplingMode::Sample);
        Ok(())
    }

    fn emit_deleted_unit(&mut self, var: Var, id: u64, value: bool) -> Result<(), CheckerError> {
        let pivot = var.lit(value);
        self.emit(&CheckedProofStep::DeleteRatClause {
            id,
            keep_as_redundant: false,
            clause: &[pivot],
            pivot,
            propagations: &ResolutionPropagations {},
        })
    }

    /// Tells the library the assumptions again, if the variable is among them.
    fn assume_again(&mut self, var: Var) -> Result<(), CheckerError> {
        if !self.assumptions.iter().any(|lit| lit.var() == var) {
            return Ok(());
        }
        let assumptions = &self.numbered(&self.assumptions)?;
        self.judge(ProofStep::Assumptions { assumptions }, |_, cause| cause.to_string())
    }
}
