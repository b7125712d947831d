//! Proved checkers of SAT solvers' proofs and answers, over texts in memory, and the ported [`checker`] of varisat's proofs, step by
//! step.
//!
//! Nothing is kept between calls, except by a [`checker::Checker`], and any number of threads may call at once.
//!
//! ```
//! use cefindrato::{check_drat, DratOptions, Verdict};
//!
//! let formula = b"p cnf 2 4\n1 2 0\n1 -2 0\n-1 2 0\n-1 -2 0\n";
//! let answer = check_drat(formula, b"1 0\n0\n", DratOptions::default())?;
//! assert_eq!(answer.verdict, Verdict::Verified);
//! # Ok::<(), cefindrato::Fault>(())
//! ```
#![warn(missing_docs)]
use std::fmt;

pub mod checker;
mod library;
mod lit;
mod text;

pub use text::{dimacs, drat, DratStep};

/// What an accepted proof shows.
#[derive(Clone, Copy, Debug, PartialEq, Eq)]
pub enum Verdict {
    /// No assignment satisfies the clauses of the formula's text.
    Verified,
    /// All of the proof is accepted, and it shows nothing.
    NotVerified,
}

/// What a solver's answer is to a formula.
#[derive(Clone, Copy, Debug, PartialEq, Eq)]
pub enum ModelVerdict {
    /// Each assignment that agrees with the answer satisfies the formula, and there is one.
    Verified,
    /// A clause has no literal of the answer.
    NotVerified {
        /// The number of the first such clause, counted from 1.
        clause: u64,
        /// The line on which it ends.
        line: u64,
    },
}

/// Why there is no verdict: a text was rejected, or there was no memory.
#[derive(Clone, Debug, PartialEq, Eq)]
pub struct Fault {
    text: String,
    is_out_of_memory: bool,
}

impl Fault {
    /// Whether there was no memory. Nothing is said then of the formula or of the proof.
    pub fn is_out_of_memory(&self) -> bool {
        self.is_out_of_memory
    }
}

impl fmt::Display for Fault {
    fn fmt(&self, f: &mut fmt::Formatter<'_>) -> fmt::Result {
        f.write_str(&self.text)
    }
}

impl std::error::Error for Fault {}

/// The format of a proof.
#[derive(Clone, Copy, Debug, Default, PartialEq, Eq)]
pub enum Format {
    /// Detected from its first bytes: FRAT, or else DPR, which is DRAT whose additions may have witnesses.
    #[default]
    Detected,
    /// DRAT, text or binary.
    Drat,
    /// FRAT, text or binary.
    Frat,
    /// LPR text, which is LRAT text whose clauses may have witnesses.
    Lpr,
}

impl Format {
    /// The name of `Detected` up to version 0.4.
    #[allow(non_upper_case_globals)]
    #[deprecated(note = "`Format::Detected` is its name")]
    pub const Told: Format = Format::Detected;
}

/// The format of a proof, and what is wanted beside its verdict.
#[derive(Clone, Copy, Debug, Default, PartialEq, Eq)]
pub struct DratOptions {
    /// The format of the proof.
    pub format: Format,
    /// Whether the proof is wanted as LRAT text.
    pub lrat: bool,
    /// Whether the clauses of the formula that the proof uses are wanted.
    pub core: bool,
}

/// What [`check_drat`] answers.
#[derive(Clone, Debug, PartialEq, Eq)]
pub struct DratAnswer {
    /// What the proof shows.
    pub verdict: Verdict,
    /// The proof as LRAT text, where that is wanted and the proof is verified.
    pub lrat: Option<Vec<u8>>,
    /// The used clauses as DIMACS text, where they are wanted and the proof is verified.
    pub core: Option<Vec<u8>>,
}

/// Checks an LRAT proof, text or binary, against a DIMACS text.
pub fn check(cnf: &[u8], proof: &[u8]) -> Result<Verdict, Fault> {
    let mut text = library::text_buffer();
    let answer = library::lrat_check(cnf, proof, &mut text);
    verdict_of(answer.status, &text[..answer.text.len])
}

/// Checks a DRAT, DPR or FRAT proof, text or binary, or LPR text, against a DIMACS text.
///
/// Where LRAT text is wanted that is longer than eight times the proof and a megabyte, the proof is checked twice.
pub fn check_drat(cnf: &[u8], proof: &[u8], options: DratOptions) -> Result<DratAnswer, Fault> {
    let mut text = library::text_buffer();
    let mut core = vec![0; if options.core { cnf.len() + 64 } else { 0 }];
    let mut lrat = vec![0; if options.lrat { 8 * proof.len() + (1 << 20) } else { 0 }];
    let mut answer = library::drat_check(cnf, proof, options, &mut lrat, &mut core, &mut text);
    if answer.lrat.len < answer.lrat.whole {
        lrat.resize(answer.lrat.whole, 0);
        answer = library::drat_check(cnf, proof, options, &mut lrat, &mut core, &mut text);
    }
    let verdict = verdict_of(answer.status, &text[..answer.text.len])?;
    lrat.truncate(answer.lrat.len);
    core.truncate(answer.core.len);
    let is_verified = verdict == Verdict::Verified;
    Ok(DratAnswer {
        verdict,
        lrat: (is_verified && options.lrat).then_some(lrat),
        core: (is_verified && options.core).then_some(core),
    })
}

/// Checks a solver's answer that a formula is satisfiable against a DIMACS text.
pub fn check_model(cnf: &[u8], answer: &[u8]) -> Result<ModelVerdict, Fault> {
    let mut text = library::text_buffer();
    let result = library::model_check(cnf, answer, &mut text);
    Ok(match verdict_of(result.status, &text[..result.text.len])? {
        Verdict::Verified => ModelVerdict::Verified,
        Verdict::NotVerified => ModelVerdict::NotVerified { clause: result.clause, line: result.line },
    })
}

/// The version of the library: 0.4.0 is `(0, 4, 0)`.
pub fn version() -> (u32, u32, u32) {
    let number = library::version();
    (number / 10_000, number / 100 % 100, number % 100)
}

fn verdict_of(status: u8, text: &[u8]) -> Result<Verdict, Fault> {
    match status {
        library::VERIFIED => Ok(Verdict::Verified),
        library::NOT_VERIFIED => Ok(Verdict::NotVerified),
        _ => Err(Fault {
            text: String::from_utf8_lossy(text).into_owned(),
            is_out_of_memory: status == library::OUT_OF_MEMORY,
        }),
    }
}
