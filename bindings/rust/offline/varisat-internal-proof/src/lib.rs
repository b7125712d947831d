//! Steps of proofs and their bytes, by the names of the crate `varisat-internal-proof` 0.2.2, as far as `varisat-checker` needs them: it is
//! here so that that one builds without a network.
//!
//! The sources of that crate were not at hand: here are the bytes and the hash of literals of
//! [the ported checker](../../../../../docs/reference/FORMATS.md#proof-bytes), which are others.
#![warn(missing_docs)]

pub mod binary_format;

use varisat_formula::{Lit, Var};

/// The hash of a clause.
pub type ClauseHash = u64;

/// The hash of the literal of a code.
pub fn lit_code_hash(code: usize) -> ClauseHash {
    (code as u64 + 1).wrapping_mul(0x9E37_79B9_7F4A_7C15)
}

/// The hash of a literal that has a solver name.
pub fn lit_hash(lit: Lit) -> ClauseHash {
    lit_code_hash(lit.code())
}

/// The hash of a clause without repeated literals, whose variables have solver names.
pub fn clause_hash(lits: &[Lit]) -> ClauseHash {
    lits.iter().fold(0, |hash, lit| hash ^ lit_hash(*lit))
}

/// Why an irredundant clause may be deleted, or that the clause is redundant.
#[derive(Copy, Clone, Debug, PartialEq, Eq)]
pub enum DeleteClauseProof {
    /// It is redundant.
    Redundant,
    /// It has the literal of a unit clause.
    Satisfied,
    /// The last irredundant lemma is a proper part of it, and nothing was deleted since.
    Simplified,
}

/// A step of a proof.
#[derive(Copy, Clone, Debug, PartialEq, Eq)]
pub enum ProofStep<'a> {
    /// Changes the name by which hashes know a variable; it counts from the next check on.
    SolverVarName {
        /// The variable.
        global: Var,
        /// Its name, or none any more.
        solver: Option<Var>,
    },
    /// Changes the name by which the solver's caller knows a variable.
    UserVarName {
        /// The variable.
        global: Var,
        /// Its name, or none any more: then it is hidden.
        user: Option<Var>,
    },
    /// Deletes a variable that no clause with two literals or more has, and no name.
    DeleteVar {
        /// The variable, which may get another meaning.
        var: Var,
    },
    /// Changes whether models are sampled over a variable.
    ChangeSamplingMode {
        /// The variable.
        var: Var,
        /// Whether they are.
        sample: bool,
    },
    /// Adds an input clause.
    AddClause {
        /// Its literals.
        clause: &'a [Lit],
    },
    /// Adds a lemma. It has the literal of a unit clause, or with all its literals false, propagation leads to a conflict.
    AtClause {
        /// Whether it may be deleted at any time.
        redundant: bool,
        /// Its literals.
        clause: &'a [Lit],
        /// The hashes of the clauses that propagate.
        propagation_hashes: &'a [ClauseHash],
    },
    /// Adds unit clauses, each of which follows from units and one other clause.
    UnitClauses {
        /// Each with the hash of that clause.
        units: &'a [(Lit, ClauseHash)],
    },
    /// Deletes a clause with two literals or more.
    DeleteClause {
        /// Its literals.
        clause: &'a [Lit],
        /// Why it may be deleted.
        proof: DeleteClauseProof,
    },
    /// Changes the width of hashes.
    ChangeHashBits {
        /// How many bits a hash has, from 1 to 64.
        bits: u32,
    },
    /// Some assignment satisfies the clauses and assumptions, and makes these literals true.
    Model {
        /// The literals.
        assignment: &'a [Lit],
    },
    /// Assumes literals from here on, in place of earlier ones.
    Assumptions {
        /// The literals.
        assumptions: &'a [Lit],
    },
    /// No assignment satisfies the clauses and makes these literals true.
    FailedAssumptions {
        /// The literals, which are assumed.
        failed_core: &'a [Lit],
        /// The hashes of the clauses that propagate.
        propagation_hashes: &'a [ClauseHash],
    },
    /// Ends the proof.
    End,
}
