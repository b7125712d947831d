//! The clauses that the library has accepted and not deleted, with their ids.
//!
//! A clause has two hashes: that by which the library knows it, and that by which the proof names it.
use crate::hash::ClauseHasher;
use cefindrato::checker as library;
use std::collections::{BTreeMap, HashMap};
use varisat_formula::{Lit, Var};
use varisat_internal_proof::ClauseHash;

/// A clause with two literals or more.
pub(crate) struct Clause {
    pub lits: Box<[Lit]>,
    hash: ClauseHash,
    /// Irredundant and redundant ones.
    copies: [u32; 2],
}

/// A unit clause: the value of its variable.
#[derive(Clone, Copy)]
pub(crate) struct Unit {
    pub value: bool,
    pub id: u64,
}

#[derive(Clone, Copy, PartialEq, Eq)]
pub(crate) enum Stored {
    New,
    Duplicate,
    NewlyIrredundant,
}

#[derive(Clone, Copy, PartialEq, Eq)]
pub(crate) enum Deleted {
    Unchanged,
    NewlyRedundant,
    Removed,
}

type Buckets = HashMap<ClauseHash, Vec<u64>>;

pub(crate) struct Store {
    pub hasher: ClauseHasher,
    next_id: u64,
    clauses: BTreeMap<u64, Clause>,
    /// The ids of the clauses of each hash of the library, rising.
    buckets: Buckets,
    /// The same by the proof's hashes, if they may differ.
    named: Option<Buckets>,
    /// Whether a variable has another number in the library.
    is_renumbered: bool,
    units: HashMap<Var, Unit>,
    occurrences: HashMap<Var, usize>,
    /// The ids of two opposite units.
    pub conflict: Option<[u64; 2]>,
}

impl Default for Store {
    fn default() -> Store {
        let hasher = ClauseHasher::default();
        Store {
            named: if hasher.is_plain() { None } else { Some(Buckets::new()) },
            hasher,
            next_id: 0,
            clauses: BTreeMap::new(),
            buckets: Buckets::new(),
            is_renumbered: false,
            units: HashMap::new(),
            occurrences: HashMap::new(),
            conflict: None,
        }
    }
}

impl Store {
    /// The next id, which is taken.
    pub fn take_id(&mut self) -> u64 {
        self.next_id += 1;
        self.next_id - 1
    }

    pub fn clauses(&self) -> impl Iterator<Item = &Clause> {
        self.clauses.values()
    }

    pub fn unit(&self, var: Var) -> Option<Unit> {
        self.units.get(&var).copied()
    }

    /// The id of the unit clause of this literal.
    pub fn unit_of(&self, lit: Lit) -> Option<u64> {
        self.unit(lit.var()).filter(|unit| unit.value == lit.is_positive()).map(|unit| unit.id)
    }

    pub fn remove_unit(&mut self, var: Var) {
        self.units.remove(&var);
    }

    /// Whether a clause with two literals or more has the variable.
    pub fn has(&self, var: Var) -> bool {
        self.occurrences.contains_key(&var)
    }

    /// Stores a canonical clause that is no tautology; `numbered` are its literals in the library.
    pub fn add(&mut self, lits: &[Lit], numbered: &[library::Lit], redundant: bool) -> (u64, Stored) {
        match *lits {
            [] => (self.take_id(), Stored::New),
            [lit] => self.add_unit(lit),
            _ => self.add_longer(lits, library::clause_hash(numbered), redundant),
        }
    }

    pub fn add_unit(&mut self, lit: Lit) -> (u64, Stored) {
        let unit = self.unit(lit.var());
        if let Some(id) = self.unit_of(lit) {
            return (id, Stored::Duplicate);
        }
        let id = self.take_id();
        match unit {
            Some(opposite) => self.conflict = Some([opposite.id, id]),
            None => {
                self.units.insert(lit.var(), Unit { value: lit.is_positive(), id });
            }
        }
        (id, Stored::New)
    }

    fn add_longer(&mut self, lits: &[Lit], hash: ClauseHash, redundant: bool) -> (u64, Stored) {
        if let Some(id) = self.find(lits, hash) {
            let copies = &mut self.clauses.get_mut(&id).expect("an id of a bucket").copies;
            copies[usize::from(redundant)] += 1;
            let is_first = !redundant && copies[0] == 1;
            return (id, if is_first { Stored::NewlyIrredundant } else { Stored::Duplicate });
        }
        let id = self.take_id();
        let mut copies = [0, 0];
        copies[usize::from(redundant)] = 1;
        self.clauses.insert(id, Clause { lits: lits.into(), hash, copies });
        self.buckets.entry(hash).or_default().push(id);
        if let Some(named) = &mut self.named {
            named.entry(self.hasher.clause_hash(lits)).or_default().push(id);
        }
        for lit in lits {
            *self.occurrences.entry(lit.var()).or_default() += 1;
        }
        (id, Stored::New)
    }

    fn find(&self, lits: &[Lit], hash: ClauseHash) -> Option<u64> {
        let bucket = self.buckets.get(&hash)?;
        bucket.iter().copied().find(|id| *self.clauses[id].lits == *lits)
    }

    /// Deletes a copy of a canonical clause. None if there is no copy of this kind.
    pub fn delete(&mut self, lits: &[Lit], numbered: &[library::Lit], redundant: bool) -> Option<(u64, Deleted)> {
        let id = self.find(lits, library::clause_hash(numbered))?;
        let copies = &mut self.clauses.get_mut(&id)?.copies;
        let count = &mut copies[usize::from(redundant)];
        *count = count.checked_sub(1)?;
        let outcome = match *copies {
            [0, 0] => Deleted::Removed,
            [0, _] if !redundant => Deleted::NewlyRedundant,
            _ => Deleted::Unchanged,
        };
        if outcome == Deleted::Removed {
            self.remove(id);
        }
        Some((id, outcome))
    }

    fn remove(&mut self, id: u64) {
        let clause = self.clauses.remove(&id).expect("an id of a bucket");
        remove_from(&mut self.buckets, clause.hash, id);
        if let Some(named) = &mut self.named {
            remove_from(named, self.hasher.clause_hash(&clause.lits), id);
        }
        for lit in clause.lits.iter() {
            let count = self.occurrences.get_mut(&lit.var()).expect("a literal of a clause");
            *count -= 1;
            if *count == 0 {
                self.occurrences.remove(&lit.var());
            }
        }
    }

    /// Applies the names that wait, and names all clauses again.
    pub fn rehash(&mut self) {
        self.hasher.apply();
        self.named = None;
        if self.hasher.is_plain() && !self.is_renumbered {
            return;
        }
        let mut named = Buckets::new();
        for (&id, clause) in &self.clauses {
            named.entry(self.hasher.clause_hash(&clause.lits)).or_default().push(id);
        }
        self.named = Some(named);
    }

    /// From here on variables may have other numbers in the library.
    pub fn renumber(&mut self) {
        self.is_renumbered = true;
        let buckets = &self.buckets;
        self.named.get_or_insert_with(|| buckets.clone());
    }

    /// Whether the proof names a clause by this hash.
    pub fn is_named(&self, hash: ClauseHash) -> bool {
        self.named.as_ref().unwrap_or(&self.buckets).contains_key(&hash)
    }

    /// The library's hashes of the clauses that the proof names by these. A hash that names none becomes one that names none.
    pub fn library_hashes(&self, hashes: &[ClauseHash]) -> Vec<ClauseHash> {
        let named = match &self.named {
            Some(named) => named,
            None => return hashes.to_vec(),
        };
        let of_hash = |hash| named.get(hash).map(|ids| ids.iter().map(|id| self.clauses[id].hash).collect());
        hashes.iter().flat_map(|hash| of_hash(hash).unwrap_or_else(|| vec![self.unused_hash()])).collect()
    }

    fn unused_hash(&self) -> ClauseHash {
        (0..).find(|hash| !self.buckets.contains_key(hash)).expect("fewer clauses than hashes")
    }

    /// The clauses of a hash of the library, with their ids, which rise.
    pub fn bucket(&self, hash: ClauseHash) -> impl Iterator<Item = (u64, &[Lit])> {
        let ids = self.buckets.get(&hash).map_or(&[][..], |ids| ids);
        ids.iter().map(move |id| (*id, &*self.clauses[id].lits))
    }
}

fn remove_from(buckets: &mut Buckets, hash: ClauseHash, id: u64) {
    let bucket = buckets.get_mut(&hash).expect("a bucket of its hash");
    bucket.retain(|other| *other != id);
    if bucket.is_empty() {
        buckets.remove(&hash);
    }
}
