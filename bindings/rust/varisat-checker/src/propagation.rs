//! Which clauses propagate in a check that the library has accepted.
use crate::store::Store;
use std::collections::HashMap;
use varisat_formula::{Lit, Var};
use varisat_internal_proof::ClauseHash;

/// The ids of the clauses that propagate where all literals of a canonical clause are false, in their order, and then that of the
/// conflict; or of the unit clause that the clause has. None if these hashes of the library lead to no conflict.
pub(crate) fn propagations(store: &Store, lits: &[Lit], hashes: &[ClauseHash]) -> Option<Vec<u64>> {
    if let Some(unit) = lits.iter().find_map(|&lit| store.unit_of(lit)) {
        return Some(vec![unit]);
    }
    let values = lits.iter().map(|lit| (lit.var(), lit.is_negative())).collect();
    let mut walk = Walk { store, values, ids: Vec::new() };
    let mut clauses = hashes.iter().flat_map(|&hash| store.bucket(hash));
    clauses.any(|(id, clause)| walk.conflicts(id, clause)).then_some(walk.ids)
}

struct Walk<'s> {
    store: &'s Store,
    /// Those of the literals, of propagated ones, and of the units that are in `ids`.
    values: HashMap<Var, bool>,
    ids: Vec<u64>,
}

impl Walk<'_> {
    /// Whether all literals of a clause are false. If all but one are, that one becomes true.
    fn conflicts(&mut self, id: u64, clause: &[Lit]) -> bool {
        let mut free = Vec::new();
        for &lit in clause {
            match self.value(lit) {
                Some(true) => return false,
                Some(false) => (),
                None => free.push(lit),
            }
        }
        match free[..] {
            [] => self.ids.push(id),
            [lit] => {
                self.values.insert(lit.var(), lit.is_positive());
                self.ids.push(id);
            }
            _ => (),
        }
        free.is_empty()
    }

    /// The value of a literal. The first time that it is false by a unit clause, that one propagates.
    fn value(&mut self, lit: Lit) -> Option<bool> {
        if let Some(&value) = self.values.get(&lit.var()) {
            return Some(value == lit.is_positive());
        }
        let unit = self.store.unit(lit.var())?;
        let is_true = unit.value == lit.is_positive();
        if !is_true {
            self.values.insert(lit.var(), unit.value);
            self.ids.push(unit.id);
        }
        Some(is_true)
    }
}
