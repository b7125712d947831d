//! Clauses and proofs as the texts that the checks take.
use crate::lit::Lit;
use std::io::Write;

/// A step of a DRAT proof.
#[derive(Clone, Copy, Debug, PartialEq, Eq)]
pub enum DratStep<C> {
    /// Adds a clause.
    Add(C),
    /// Deletes a clause.
    Delete(C),
}

/// Clauses as DIMACS text.
///
/// ```
/// use cefindrato::{check_drat, dimacs, drat, lit, DratOptions, DratStep, Verdict};
///
/// let formula = dimacs([[lit!(1), lit!(2)], [lit!(1), lit!(-2)], [lit!(-1), lit!(2)], [lit!(-1), lit!(-2)]]);
/// let proof = drat([DratStep::Add(vec![lit!(1)]), DratStep::Add(vec![])]);
/// assert_eq!(check_drat(&formula, &proof, DratOptions::default())?.verdict, Verdict::Verified);
/// # Ok::<(), cefindrato::Fault>(())
/// ```
pub fn dimacs<C: AsRef<[Lit]>>(clauses: impl IntoIterator<Item = C>) -> Vec<u8> {
    drat(clauses.into_iter().map(DratStep::Add))
}

/// Steps as DRAT text.
pub fn drat<C: AsRef<[Lit]>>(steps: impl IntoIterator<Item = DratStep<C>>) -> Vec<u8> {
    let mut text = Vec::new();
    for step in steps {
        let clause = match &step {
            DratStep::Add(clause) => clause,
            DratStep::Delete(clause) => {
                text.extend_from_slice(b"d ");
                clause
            }
        };
        for lit in clause.as_ref() {
            write!(text, "{lit} ").expect("a vector takes what is written");
        }
        text.extend_from_slice(b"0\n");
    }
    text
}
