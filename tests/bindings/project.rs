//! A program that uses the crate by its path; it exits 0 if the formula is shown to be unsatisfiable.
use cefindrato::{check, check_drat, DratOptions, Fault, Verdict};
use std::process::ExitCode;

const FORMULA: &[u8] = b"p cnf 2 4\n1 2 0\n1 -2 0\n-1 2 0\n-1 -2 0\n";

fn is_refuted() -> Result<bool, Fault> {
    let options = DratOptions { lrat: true, ..DratOptions::default() };
    let answer = check_drat(FORMULA, b"1 0\n0\n", options)?;
    match answer.lrat {
        Some(lines) => Ok(check(FORMULA, &lines)? == Verdict::Verified),
        None => Ok(false),
    }
}

fn main() -> ExitCode {
    match is_refuted() {
        Ok(true) => ExitCode::SUCCESS,
        Ok(false) => ExitCode::from(3),
        Err(fault) => {
            eprintln!("{fault}");
            ExitCode::FAILURE
        }
    }
}
