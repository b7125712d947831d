//! Results of calls as text, by the names that scripts have for them.
use anyhow::Error;
use std::io;
use varisat_checker::{CheckerError, DimacsFault};
use varisat_internal_proof::binary_format::MalformedStep;

/// How the message of each cause begins and goes on, in the crate varisat-checker or, where it has none, in the port.
const CAUSES: [(&str, &str, &str); 25] = [
    ("NotSampling", "variable ", " is not a sampling variable"),
    ("Tautology", "clause [", "is a tautology"),
    ("NoClauseForHash", "no clause found for hash ", ""),
    ("AtCheckFailed", "AT check failed for [", ""),
    ("DeleteUnitOrEmpty", "delete of unit or empty clause [", ""),
    ("DeleteUnknown", "delete of unknown clause [", ""),
    ("DeleteRedundantIsIrredundant", "delete of redundant clause [", "which is irredundant"),
    ("DeleteIrredundantIsRedundant", "delete of irredundant clause [", "which is redundant"),
    ("NotSatisfied", "deleted clause [", "is not satisfied"),
    ("NotSubsumed", "deleted clause [", "is not subsumed by previous clause ["),
    ("DeletedVarNamed", "deleted variable ", " corresponds to user variable "),
    ("DeletedVarHasClauses", "deleted variable ", " still has clauses"),
    ("SampleHidden", "cannot sample hidden variable ", ""),
    ("UserNameTaken", "user name ", " used for two different variables"),
    ("StillHidden", "user name added to variable ", " which is still hidden"),
    ("NameInUse", "change of user name for in use variable ", ""),
    ("NoNameToRemove", "no user name to remove for variable ", ""),
    ("ModelAgainstUnit", "model assignment conflicts with unit clause ", ""),
    ("ModelAgainstItself", "model contains conflicting assignment ", ""),
    ("ModelMissesAssumption", "model does not contain assumption ", ""),
    ("ModelMissesClause", "model does not satisfy clause [", ""),
    ("NotAssumed", "failed core contains non-assumed variables", ""),
    ("CoreVarHidden", "failed core contains hidden variable", ""),
    ("UnknownVar", "unknown variable", ""),
    ("HashBits", "hash width out of range", ""),
];

fn cause_of(msg: &str) -> &str {
    let is_of = |(_, begin, middle): &&(&str, &str, &str)| msg.starts_with(begin) && msg.contains(middle);
    match CAUSES.iter().filter(is_of).max_by_key(|(_, begin, middle)| begin.len() + middle.len()) {
        Some((name, _, _)) => name,
        None if msg == "model after unsatisfiability" => "ModelAfterUnsat",
        None => msg,
    }
}

pub fn answer(outcome: Result<(), CheckerError>) -> String {
    match outcome {
        Ok(()) => "Ok".to_owned(),
        Err(CheckerError::ProofIncomplete { step }) => format!("ProofIncomplete {step}"),
        Err(CheckerError::IoError { step, cause }) => format!("IoError {step} {:?}", cause.kind()),
        Err(CheckerError::ParseError { step, cause }) => match cause.downcast_ref::<MalformedStep>() {
            Some(malformed) => format!("ParseError {step} {malformed:?}"),
            None => format!("ParseError {step}: {cause}"),
        },
        Err(CheckerError::CheckFailed { step, msg, .. }) => format!("CheckFailed {step} {}", cause_of(&msg)),
        Err(CheckerError::ProofProcessorError { .. }) => "ProofProcessorError".to_owned(),
        Err(fault) => format!("{fault:?}"),
    }
}

pub fn text_answer(outcome: Result<(), Error>) -> String {
    let fault = match outcome {
        Ok(()) => return "Ok".to_owned(),
        Err(fault) => fault,
    };
    if let Some(DimacsFault { line, kind }) = fault.downcast_ref() {
        return format!("Malformed {line} {kind:?}");
    }
    if let Some(read) = fault.downcast_ref::<io::Error>() {
        return format!("Read {:?}", read.kind());
    }
    match fault.downcast::<CheckerError>() {
        Ok(fault) => answer(Err(fault)),
        Err(other) => other.to_string(),
    }
}

/// Whether a result is that of the script. A message of the port has no literals, variables and hashes; reads that end early are
/// another fault upstream.
pub fn agree(call: &str, expected: &str, answer: &str) -> bool {
    if call.starts_with("says") {
        return answer.starts_with(expected) || {
            let (text, rest) = answer.split_once('[').unwrap_or((answer, ""));
            let ends = rest.split_once(']').map_or("", |(_, ends)| ends);
            format!("{}{}", text.trim_end(), ends) == expected
        };
    }
    let early = expected.strip_prefix("IoError ").and_then(|rest| rest.strip_suffix(" UnexpectedEof"));
    match early {
        Some(step) => answer == format!("ProofIncomplete {step}"),
        None => answer == expected,
    }
}
