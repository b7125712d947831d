//! The ported checker of varisat's proofs, step by step, under the names of the crate `varisat-checker`. The crate of that name in the
//! folder `varisat-checker` has its whole interface, over this module.
//!
//! A lemma or a failed core names the clauses that it needs by their hashes, in the order of propagation. A unit clause is known
//! without a hash.
//!
//! ```
//! use cefindrato::checker::{clause_hash, Checker, ProofStep};
//! use cefindrato::lit;
//!
//! let mut checker = Checker::new();
//! checker.add_clause(&[lit!(1), lit!(2)])?;
//! checker.self_check_step(ProofStep::Assumptions { assumptions: &[lit!(-1), lit!(-2)] })?;
//! // no assignment satisfies the clause and makes -1 and -2 true
//! checker.self_check_step(ProofStep::FailedAssumptions {
//!     failed_core: &[lit!(-1), lit!(-2)],
//!     propagation_hashes: &[clause_hash(&[lit!(1), lit!(2)])],
//! })?;
//! assert!(!checker.unsat());
//! # Ok::<(), cefindrato::checker::CheckerError>(())
//! ```
use crate::library;
pub use crate::lit::Lit;
use std::fmt;

/// The hash of a clause.
pub type ClauseHash = u64;

/// The hash of the literal of a code; of a literal without a solver name, of its code plus 2^29.
pub fn lit_code_hash(code: usize) -> ClauseHash {
    (!(code as u64)).wrapping_mul(0x61c8_8646_80b5_83eb)
}

/// The hash by which a step names a clause without repeated literals: the exclusive or of those of its literals.
pub fn clause_hash(lits: &[Lit]) -> ClauseHash {
    lits.iter().fold(0, |hash, lit| hash ^ lit_code_hash(lit.code() + (1 << 29)))
}

/// Why an irredundant clause may be deleted, or that the clause is redundant.
#[derive(Clone, Copy, Debug, PartialEq, Eq)]
pub enum DeleteClauseProof {
    /// It is redundant.
    Redundant,
    /// It has the literal of a unit clause.
    Satisfied,
    /// The last irredundant lemma is a proper part of it, and nothing was deleted since.
    Simplified,
}

/// A step. Those of the crate that rename or sample variables, or change the width of hashes, are not here.
#[derive(Clone, Copy, Debug, PartialEq, Eq)]
pub enum ProofStep<'a> {
    /// Adds an input clause.
    AddClause {
        /// Its literals.
        clause: &'a [Lit],
    },
    /// Adds a lemma. It has the literal of a unit clause, or with all its literals false, propagation leads to a conflict.
    AtClause {
        /// Whether it may be deleted at any time.
        redundant: bool,
        /// Its literals.
        clause: &'a [Lit],
        /// The hashes of the clauses that propagate.
        propagation_hashes: &'a [ClauseHash],
    },
    /// Deletes a clause with two literals or more.
    DeleteClause {
        /// Its literals.
        clause: &'a [Lit],
        /// Why it may be deleted.
        proof: DeleteClauseProof,
    },
    /// Some assignment satisfies the clauses, and makes these literals true: each clause with two literals or more has one of them,
    /// the assumptions are among them, and none is the negation of a unit clause.
    Model {
        /// The literals, of variables up to the greatest one of the clauses and assumptions.
        assignment: &'a [Lit],
    },
    /// Assumes literals from here on, in place of earlier ones.
    Assumptions {
        /// The literals.
        assumptions: &'a [Lit],
    },
    /// No assignment satisfies the clauses and makes these literals true. Two of them are opposite, or the clause of their negations
    /// would be accepted as a lemma.
    FailedAssumptions {
        /// The literals, which are assumed.
        failed_core: &'a [Lit],
        /// The hashes of the clauses that propagate.
        propagation_hashes: &'a [ClauseHash],
    },
    /// Claims nothing.
    End,
}

/// Why a step or an input clause is rejected.
#[derive(Clone, Copy, Debug, PartialEq, Eq)]
#[non_exhaustive]
pub enum CheckCause {
    /// A clause that is derived or deleted has both signs of a variable.
    Tautology,
    /// A hash is that of no clause with two literals or more.
    NoClauseForHash,
    /// Propagation leads to no conflict.
    AtCheckFailed,
    /// A clause with fewer than two literals is not deleted.
    DeleteUnitOrEmpty,
    /// There is no such clause.
    DeleteUnknown,
    /// The clause is not redundant.
    DeleteRedundantIsIrredundant,
    /// The clause is redundant.
    DeleteIrredundantIsRedundant,
    /// The deleted clause has the literal of no unit clause.
    NotSatisfied,
    /// The last irredundant lemma is no part of the deleted clause.
    NotSubsumed,
    /// The model has the negation of a unit clause.
    ModelAgainstUnit,
    /// The model has both signs of a variable.
    ModelAgainstItself,
    /// The model does not have an assumption.
    ModelMissesAssumption,
    /// The model has no literal of a stored clause, which may be a lemma.
    ModelMissesClause,
    /// A literal of the core was not assumed.
    NotAssumed,
    /// The model has a variable beyond those of clauses and assumptions.
    UnknownVar,
    /// Unsatisfiability is recorded, so there is no model.
    ModelAfterUnsat,
    /// No number is left for a clause.
    IdsExhausted,
    /// The same clause was added as often as can be counted.
    CountExhausted,
    /// No number is left for a step.
    StepsExhausted,
}

/// The causes, by the numbers of `cefindrato_checker.h`, with their texts.
const CAUSES: [(u8, CheckCause, &str); 19] = [
    (2, CheckCause::Tautology, "clause is a tautology"),
    (3, CheckCause::NoClauseForHash, "no clause found for hash"),
    (4, CheckCause::AtCheckFailed, "AT check failed"),
    (5, CheckCause::DeleteUnitOrEmpty, "delete of unit or empty clause"),
    (6, CheckCause::DeleteUnknown, "delete of unknown clause"),
    (7, CheckCause::DeleteRedundantIsIrredundant, "delete of redundant clause which is irredundant"),
    (8, CheckCause::DeleteIrredundantIsRedundant, "delete of irredundant clause which is redundant"),
    (9, CheckCause::NotSatisfied, "deleted clause is not satisfied"),
    (10, CheckCause::NotSubsumed, "deleted clause is not subsumed by previous clause"),
    (18, CheckCause::ModelAgainstUnit, "model assignment conflicts with unit clause"),
    (19, CheckCause::ModelAgainstItself, "model contains conflicting assignment"),
    (20, CheckCause::ModelMissesAssumption, "model does not contain assumption"),
    (21, CheckCause::ModelMissesClause, "model does not satisfy clause"),
    (22, CheckCause::NotAssumed, "failed core contains non-assumed variables"),
    (23, CheckCause::UnknownVar, "unknown variable"),
    (26, CheckCause::ModelAfterUnsat, "model after unsatisfiability"),
    (27, CheckCause::IdsExhausted, "no clause id left"),
    (28, CheckCause::CountExhausted, "clause count exhausted"),
    (29, CheckCause::StepsExhausted, "no step number left"),
];

impl fmt::Display for CheckCause {
    fn fmt(&self, f: &mut fmt::Formatter<'_>) -> fmt::Result {
        let found = CAUSES.iter().find(|(_, cause, _)| cause == self);
        f.write_str(found.map_or("", |(_, _, text)| text))
    }
}

/// Why a call is not accepted.
#[derive(Clone, Debug, PartialEq, Eq)]
#[non_exhaustive]
pub enum CheckerError {
    /// It is rejected. No clause and no assumption is changed, and the checker can go on.
    CheckFailed {
        /// How many steps were checked so far, with this one.
        step: u64,
        /// Why it is rejected.
        msg: CheckCause,
    },
    /// There was no memory. Later calls may return `Failed`.
    OutOfMemory,
    /// There was no memory within an earlier check: the checker has failed.
    Failed,
}

impl fmt::Display for CheckerError {
    fn fmt(&self, f: &mut fmt::Formatter<'_>) -> fmt::Result {
        match self {
            CheckerError::CheckFailed { step, msg } => write!(f, "step {step}: Checking proof failed: {msg}"),
            CheckerError::OutOfMemory => f.write_str("out of memory"),
            CheckerError::Failed => f.write_str("checker has failed"),
        }
    }
}

impl std::error::Error for CheckerError {}

fn result_of(answer: library::CheckerAnswer) -> Result<(), CheckerError> {
    match answer.status {
        library::VERIFIED => Ok(()),
        library::NOT_VERIFIED => Err(CheckerError::CheckFailed { step: answer.step, msg: cause_of(answer.cause) }),
        library::OUT_OF_MEMORY => Err(CheckerError::OutOfMemory),
        // (there is a checker, and each literal and each kind of step is one)
        _ => Err(CheckerError::Failed),
    }
}

fn cause_of(number: u8) -> CheckCause {
    let found = CAUSES.iter().find(|(one, _, _)| *one == number);
    found.expect("the library is of the same version").1
}

/// A checker. It begins with its first call.
#[derive(Default)]
pub struct Checker {
    handle: library::Checker,
}

impl Checker {
    /// A checker without clauses.
    pub fn new() -> Checker {
        Checker::default()
    }

    /// Adds an input clause, which is no step. It changes nothing if unsatisfiability is recorded.
    pub fn add_clause(&mut self, clause: &[Lit]) -> Result<(), CheckerError> {
        self.begin()?;
        result_of(self.handle.add_clause(clause))
    }

    /// Checks a step.
    pub fn self_check_step(&mut self, step: ProofStep) -> Result<(), CheckerError> {
        self.begin()?;
        let (kind, lits, hashes): (u8, &[Lit], &[ClauseHash]) = match step {
            ProofStep::AddClause { clause } => (1, clause, &[]),
            ProofStep::AtClause { redundant: false, clause, propagation_hashes } => (2, clause, propagation_hashes),
            ProofStep::AtClause { redundant: true, clause, propagation_hashes } => (3, clause, propagation_hashes),
            ProofStep::DeleteClause { clause, proof: DeleteClauseProof::Redundant } => (4, clause, &[]),
            ProofStep::DeleteClause { clause, proof: DeleteClauseProof::Satisfied } => (5, clause, &[]),
            ProofStep::DeleteClause { clause, proof: DeleteClauseProof::Simplified } => (6, clause, &[]),
            ProofStep::Model { assignment } => (7, assignment, &[]),
            ProofStep::Assumptions { assumptions } => (8, assumptions, &[]),
            ProofStep::FailedAssumptions { failed_core, propagation_hashes } => (9, failed_core, propagation_hashes),
            ProofStep::End => (10, &[], &[]),
        };
        result_of(self.handle.check_step(kind, lits, hashes))
    }

    /// Whether unsatisfiability is recorded: then no assignment satisfies the clauses, and no later query has a model.
    pub fn unsat(&mut self) -> bool {
        self.handle.unsat()
    }

    fn begin(&mut self) -> Result<(), CheckerError> {
        if self.handle.is_begun() {
            return Ok(());
        }
        result_of(self.handle.begin())
    }
}
