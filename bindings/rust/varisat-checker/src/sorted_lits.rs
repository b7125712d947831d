//! Sorted lists of literals.
use varisat_formula::Lit;

/// The literals, sorted and without repeats, and whether two of them are opposite.
pub(crate) fn canonical(lits: &[Lit]) -> (Vec<Lit>, bool) {
    let mut sorted = lits.to_vec();
    sorted.sort_unstable();
    sorted.dedup();
    let is_tautology = sorted.windows(2).any(|pair| pair[0] == !pair[1]);
    (sorted, is_tautology)
}
