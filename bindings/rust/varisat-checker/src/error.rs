//! Why calls are not accepted.
use anyhow::Error;
use std::error::Error as StdError;
use std::fmt;
use std::io;

/// Why a call is not accepted.
#[derive(Debug)]
#[non_exhaustive]
pub enum CheckerError {
    /// The bytes of a proof end before its step `End`.
    ProofIncomplete {
        /// How many steps were checked, with this one.
        step: u64,
    },
    /// A read of the proof fails.
    IoError {
        /// How many steps were checked, with this one.
        step: u64,
        /// Why it fails.
        cause: io::Error,
    },
    /// The bytes of a proof are no step.
    ParseError {
        /// How many steps were checked, with this one.
        step: u64,
        /// Why they are none.
        cause: Error,
    },
    /// A step or a clause of the formula is rejected. The checker can go on.
    CheckFailed {
        /// How many steps were checked so far, with this one.
        step: u64,
        /// Why it is rejected.
        msg: String,
        /// The step; empty for a clause of the formula, assumptions and user variables.
        debug_step: String,
    },
    /// A processor fails. From here on each call is `Failed`.
    ProofProcessorError {
        /// What it returned.
        cause: Error,
    },
    /// The library had no memory. Later calls may be `Failed`.
    OutOfMemory,
    /// The checker has failed before.
    Failed,
}

impl fmt::Display for CheckerError {
    fn fmt(&self, f: &mut fmt::Formatter<'_>) -> fmt::Result {
        match self {
            CheckerError::ProofIncomplete { step } => write!(f, "step {step}: Unexpected end of proof file"),
            CheckerError::IoError { step, cause } => write!(f, "step {step}: Error reading proof file: {cause}"),
            CheckerError::ParseError { step, cause } => write!(f, "step {step}: Could not parse proof step: {cause}"),
            CheckerError::CheckFailed { step, msg, .. } => write!(f, "step {step}: Checking proof failed: {msg}"),
            CheckerError::ProofProcessorError { cause } => write!(f, "Error in proof processor: {cause}"),
            CheckerError::OutOfMemory => f.write_str("out of memory"),
            CheckerError::Failed => f.write_str("checker has failed"),
        }
    }
}

impl StdError for CheckerError {
    fn source(&self) -> Option<&(dyn StdError + 'static)> {
        match self {
            CheckerError::IoError { cause, .. } => Some(cause),
            CheckerError::ParseError { cause, .. } | CheckerError::ProofProcessorError { cause } => Some(&**cause),
            _ => None,
        }
    }
}
