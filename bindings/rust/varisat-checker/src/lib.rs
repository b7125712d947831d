//! The interface of the crate `varisat-checker` 0.2.2, over the proved checker of the crate `cefindrato`.
//!
//! # What is proved
//!
//! A clause of the formula, a lemma, a deletion, a model, assumptions and a core are accepted only if the library accepts them, whose
//! contracts [the README of all bindings](../../../README.md) has. So what [`Checker::unsat`] says is proved, of the clauses that this
//! crate gave to the library. Nothing proves the rest, which is this crate's own:
//!
//! - reading proofs and formulas;
//! - names, modes and deletions of variables, and the width of hashes, of which the library has no steps: they claim nothing of clauses.
//!   A variable that is deleted with its unit clause gets another number in the library. Derived units are redundant lemmas there. The
//!   hashes by which a proof names clauses are translated to those of the library;
//! - what processors get: the ids of clauses, and the propagations, which are found again along the hashes that the library accepted.
//!
//! # Where types and bytes come from
//!
//! Literals and formulas are those of `varisat-formula`, errors those of `anyhow`, steps and the bytes of proofs those of
//! `varisat-internal-proof`, as upstream. For builds without a network the folder `offline` has a part of each, and with these alone
//! this crate was tried. There, proofs are [those of the ported checker](../../../../docs/reference/FORMATS.md#proof-bytes), and a file
//! that varisat has written is not read.
//!
//! # Differences
//!
//! Steps are judged as by the ported checker, which differs from upstream in what
//! [DIFFERENCES](../../../../docs/reference/DIFFERENCES.md) lists under "Results that changed" and "Where the crate panics", and by
//! `OutOfMemory` and `Failed`. Malformed DIMACS text is a [`DimacsFault`]. Nothing is logged. [`CheckerData`] shows no field.
//!
//! What a clause takes here comes on top of what it takes in the library, and each variable up to the greatest one takes 16 bytes here.
//!
//! # Example
//!
//! ```
//! use varisat_checker::{CheckedProofStep, Checker, CheckerData, ProofProcessor};
//! use varisat_formula::cnf_formula;
//!
//! #[derive(Default)]
//! struct Lemmas(usize);
//!
//! impl ProofProcessor for Lemmas {
//!     fn process_step(&mut self, step: &CheckedProofStep, _: CheckerData) -> Result<(), anyhow::Error> {
//!         self.0 += usize::from(matches!(step, CheckedProofStep::AtClause { .. }));
//!         Ok(())
//!     }
//! }
//!
//! let mut lemmas = Lemmas::default();
//! let mut checker = Checker::new();
//! checker.add_processor(&mut lemmas);
//! checker.add_formula(&cnf_formula![1, 2; 1, -2; -1, 2; -1, -2])?;
//! // hashes of one bit; the unit clause 1; the empty clause; the end
//! checker.check_proof(&b"\x09\x01\x06\x00\x01\x00\x02\x01\x00\x06\x00\x00\x02\x00\x01\x0D"[..])?;
//! assert!(checker.unsat());
//! drop(checker);
//! assert_eq!(lemmas.0, 2);
//! # Ok::<(), varisat_checker::CheckerError>(())
//! ```
#![warn(missing_docs)]

mod context;
mod deletions;
mod dimacs;
mod error;
mod hash;
pub mod internal;
mod lemmas;
mod names;
mod processing;
mod propagation;
mod queries;
mod sorted_lits;
mod state;
mod store;
mod transcript;
mod variables;

pub use dimacs::{DimacsFault, DimacsKind};
pub use error::CheckerError;
pub use processing::{
    CheckedProofStep, CheckedSamplingMode, CheckedUserVar, CheckerData, ProofProcessor, ResolutionPropagations,
};
pub use transcript::{ProofTranscriptProcessor, ProofTranscriptStep};

use anyhow::Error;
use context::Context;
use std::io;
use varisat_formula::{CnfFormula, Lit};

/// A checker of proofs in varisat's format.
#[derive(Default)]
pub struct Checker<'a> {
    ctx: Box<Context<'a>>,
}

impl<'a> Checker<'a> {
    /// A checker without clauses.
    pub fn new() -> Checker<'a> {
        Checker::default()
    }

    /// Adds a clause of the formula, which is no step. It changes nothing if unsatisfiability is recorded.
    pub fn add_clause(&mut self, clause: &[Lit]) -> Result<(), CheckerError> {
        self.ctx.add_clause(clause)
    }

    /// Adds the clauses of a formula, up to one that is rejected.
    pub fn add_formula(&mut self, formula: &CnfFormula) -> Result<(), CheckerError> {
        formula.iter().try_for_each(|clause| self.add_clause(clause))
    }

    /// Adds the clauses of a DIMACS text, up to one that is rejected or the text's first fault.
    ///
    /// # Errors
    ///
    /// A [`CheckerError`], a [`DimacsFault`], or an [`io::Error`] of the input.
    pub fn add_dimacs_cnf(&mut self, input: impl io::Read) -> Result<(), Error> {
        self.ctx.begin()?;
        let clauses = dimacs::Clauses::new(io::BufReader::new(input));
        clauses.give(|clause| Ok(self.add_clause(clause)?))
    }

    /// Adds a processor, which gets the steps from here on.
    pub fn add_processor(&mut self, processor: &'a mut dyn ProofProcessor) {
        self.ctx.processing.processors.push(processor);
    }

    /// Adds a processor of the transcript, which gets its steps from here on.
    pub fn add_transcript(&mut self, processor: &'a mut dyn ProofTranscriptProcessor) {
        self.ctx.processing.transcript_processors.push(processor);
    }

    /// Checks a proof, up to a step that is rejected or the proof's end. Once the end was accepted, nothing more is read.
    ///
    /// An accepted proof alone says nothing of the formula: ask [`Checker::unsat`].
    ///
    /// # Errors
    ///
    /// `ProofIncomplete` if the bytes end before the step `End`; `ParseError` with a
    /// [`MalformedStep`](varisat_internal_proof::binary_format::MalformedStep); `IoError`; or why a step is not accepted.
    pub fn check_proof(&mut self, input: impl io::Read) -> Result<(), CheckerError> {
        self.ctx.check_proof(input)
    }

    /// Whether unsatisfiability is recorded, by the library. Then no assignment satisfies the clauses that were added, those that
    /// steps of the proof added among them. The crate `varisat-checker` has no such call.
    pub fn unsat(&mut self) -> bool {
        self.ctx.is_unsat()
    }
}
