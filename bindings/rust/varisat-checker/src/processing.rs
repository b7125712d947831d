//! Processing of checked proof steps.
use crate::transcript::{transcript_step, ProofTranscriptProcessor};
use crate::variables::Variables;
use crate::CheckerError;
use anyhow::Error;
use std::marker::PhantomData;
use varisat_formula::{Lit, Var};

/// A step that was accepted.
///
/// Clauses have ids, which rise: the library has none, so they are counted here, over what it accepted. Clauses, assumptions and
/// cores are sorted and have no literal twice.
#[derive(Debug)]
pub enum CheckedProofStep<'a> {
    /// A variable gets another user variable or mode, or is hidden.
    UserVar {
        /// The variable.
        var: Var,
        /// Its user variable, or none any more.
        user_var: Option<CheckedUserVar>,
    },
    /// A clause of the formula.
    AddClause {
        /// Its id.
        id: u64,
        /// Its literals.
        clause: &'a [Lit],
    },
    /// A clause of the formula that is stored already.
    DuplicatedClause {
        /// An id that no other step has.
        id: u64,
        /// The id of the stored clause.
        same_as_id: u64,
        /// Its literals.
        clause: &'a [Lit],
    },
    /// A clause of the formula that has both signs of a variable. It is not stored.
    TautologicalClause {
        /// An id that no other step has.
        id: u64,
        /// Its literals.
        clause: &'a [Lit],
    },
    /// A lemma.
    AtClause {
        /// Its id.
        id: u64,
        /// Whether it is redundant.
        redundant: bool,
        /// Its literals.
        clause: &'a [Lit],
        /// With all literals false, the clauses with these ids propagate in this order, and the last one is false; some may not be
        /// needed. If it has the literal of a unit clause, the id of that one.
        propagations: &'a [u64],
    },
    /// A redundant clause is removed.
    DeleteClause {
        /// Its id.
        id: u64,
        /// Its literals.
        clause: &'a [Lit],
    },
    /// A clause of the formula is removed, which another one has a part of.
    DeleteAtClause {
        /// Its id.
        id: u64,
        /// Whether it stays as a redundant clause.
        keep_as_redundant: bool,
        /// Its literals.
        clause: &'a [Lit],
        /// The id of that other clause.
        propagations: &'a [u64],
    },
    /// A unit clause is removed with its variable.
    DeleteRatClause {
        /// Its id.
        id: u64,
        /// Always false.
        keep_as_redundant: bool,
        /// Its literal.
        clause: &'a [Lit],
        /// The same literal.
        pivot: Lit,
        /// Nothing.
        propagations: &'a ResolutionPropagations,
    },
    /// A redundant clause is one of the formula from here on.
    MakeIrredundant {
        /// Its id.
        id: u64,
        /// Its literals.
        clause: &'a [Lit],
    },
    /// Some assignment satisfies the formula and the assumptions and makes these literals true.
    Model {
        /// The literals, as the proof lists them.
        assignment: &'a [Lit],
    },
    /// Literals are assumed, in place of earlier ones.
    Assumptions {
        /// The literals.
        assumptions: &'a [Lit],
    },
    /// No assignment satisfies the formula and makes these assumptions true.
    FailedAssumptions {
        /// The literals.
        failed_core: &'a [Lit],
        /// The clauses that propagate where they are true, as of a lemma; none if two of them are opposite.
        propagations: &'a [u64],
    },
}

/// Sampling mode of a user variable.
#[derive(Debug)]
pub enum CheckedSamplingMode {
    /// Models are sampled over it.
    Sample,
    /// It is determined by those that are.
    Witness,
}

/// The user variable of a variable.
#[derive(Debug)]
pub struct CheckedUserVar {
    /// The user variable.
    pub user_var: Var,
    /// Its mode.
    pub sampling_mode: CheckedSamplingMode,
    /// Whether it is new: else only the mode changes.
    pub new_var: bool,
}

/// Why a clause with a pivot may be removed: nothing.
#[derive(Debug)]
pub struct ResolutionPropagations {}

/// What processors may ask of the checker.
#[derive(Copy, Clone)]
pub struct CheckerData<'a, 'b>(&'a Variables, PhantomData<&'b ()>);

impl<'a, 'b> CheckerData<'a, 'b> {
    pub(crate) fn new(variables: &'a Variables) -> CheckerData<'a, 'b> {
        CheckerData(variables, PhantomData)
    }

    /// The user variable of a variable of the proof, unless that is hidden or internal.
    pub fn user_from_proof_var(self, proof_var: Var) -> Option<Var> {
        self.0.user_var(proof_var)
    }
}

/// Takes the steps that were accepted.
pub trait ProofProcessor {
    /// Takes a step.
    ///
    /// # Errors
    ///
    /// Of its own. The call that led to the step returns it as a [`CheckerError::ProofProcessorError`], and the checker has failed.
    fn process_step(&mut self, step: &CheckedProofStep, data: CheckerData) -> Result<(), Error>;
}

#[derive(Default)]
pub(crate) struct Processing<'a> {
    pub processors: Vec<&'a mut dyn ProofProcessor>,
    pub transcript_processors: Vec<&'a mut dyn ProofTranscriptProcessor>,
}

impl Processing<'_> {
    /// Gives a step to the processors, and then what it means for solver's callers to those of the transcript.
    pub fn step(&mut self, step: &CheckedProofStep, data: CheckerData) -> Result<(), CheckerError> {
        let failed = |cause| CheckerError::ProofProcessorError { cause };
        let mut processors = self.processors.iter_mut();
        processors.try_for_each(|one| one.process_step(step, data)).map_err(failed)?;
        if self.transcript_processors.is_empty() {
            return Ok(());
        }
        let mut lits = Vec::new();
        match transcript_step(step, data, &mut lits) {
            Some(step) => {
                self.transcript_processors.iter_mut().try_for_each(|one| one.process_step(&step)).map_err(failed)
            }
            None => Ok(()),
        }
    }
}
