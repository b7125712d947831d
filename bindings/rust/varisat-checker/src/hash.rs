//! The hashes by which a proof names clauses: of its own width, and by its own names of variables.
use cefindrato::checker as library;
use std::collections::HashMap;
use std::mem::take;
use varisat_formula::{Lit, Var};
use varisat_internal_proof::{lit_code_hash, lit_hash, ClauseHash};

pub(crate) struct ClauseHasher {
    width: u32,
    names: HashMap<Var, Var>,
    pending: Vec<(Var, Option<Var>)>,
    /// Whether there is a name in `pending`.
    has_new_name: bool,
}

impl Default for ClauseHasher {
    fn default() -> ClauseHasher {
        ClauseHasher { width: 64, names: HashMap::new(), pending: Vec::new(), has_new_name: false }
    }
}

impl ClauseHasher {
    pub fn clause_hash(&self, lits: &[Lit]) -> ClauseHash {
        let hash = lits.iter().fold(0, |hash, &lit| hash ^ self.hash_of(lit));
        hash >> (64 - self.width)
    }

    fn hash_of(&self, lit: Lit) -> ClauseHash {
        match self.names.get(&lit.var()) {
            Some(name) => lit_hash(name.lit(lit.is_positive())),
            None => lit_code_hash(lit.code() + 2 * Var::max_count()),
        }
    }

    /// Whether its hashes are those of the library.
    pub fn is_plain(&self) -> bool {
        self.width == 64 && self.names.is_empty() && lit_code_hash(0) == library::lit_code_hash(0)
    }

    pub fn rename(&mut self, global: Var, name: Option<Var>) {
        self.pending.push((global, name));
        self.has_new_name |= name.is_some();
    }

    /// Whether a name waits, so that the next check needs it.
    pub fn has_new_name(&self) -> bool {
        self.has_new_name
    }

    pub fn set_width(&mut self, width: u32) {
        self.width = width;
    }

    /// Applies the names and removals that wait, in their order.
    pub fn apply(&mut self) {
        self.has_new_name = false;
        for (global, name) in take(&mut self.pending) {
            match name {
                Some(name) => self.names.insert(global, name),
                None => self.names.remove(&global),
            };
        }
    }
}
