//! Formulas: lists of clauses as they were given.
use crate::{Lit, Var};
use std::borrow::Borrow;
use std::fmt;
use std::ops::Range;

/// A formula in conjunctive normal form: its clauses in the order in which they were added, each with its literals as they were
/// given.
#[derive(Clone, Default, Eq)]
pub struct CnfFormula {
    var_count: usize,
    lits: Vec<Lit>,
    clauses: Vec<Range<usize>>,
}

impl CnfFormula {
    /// The formula without clauses.
    pub fn new() -> CnfFormula {
        CnfFormula::default()
    }

    /// How many variables there are: all up to the greatest one that was added or counted.
    pub fn var_count(&self) -> usize {
        self.var_count
    }

    /// Counts at least this many variables.
    pub fn set_var_count(&mut self, count: usize) {
        self.var_count = self.var_count.max(count);
    }

    /// How many clauses there are.
    pub fn len(&self) -> usize {
        self.clauses.len()
    }

    /// Whether there is no clause.
    pub fn is_empty(&self) -> bool {
        self.clauses.is_empty()
    }

    /// The clauses, in their order.
    pub fn iter(&self) -> impl Iterator<Item = &[Lit]> {
        self.clauses.iter().map(move |clause| &self.lits[clause.clone()])
    }
}

/// To extend a formula by clauses and variables.
pub trait ExtendFormula {
    /// Adds a clause after all others.
    fn add_clause(&mut self, clause: &[Lit]);

    /// Adds a variable after all others.
    fn new_var(&mut self) -> Var;

    /// Adds a variable after all others, and returns it as a literal.
    fn new_lit(&mut self) -> Lit {
        Lit::positive(self.new_var())
    }

    /// Adds all clauses of a formula.
    fn add_formula(&mut self, formula: &CnfFormula) {
        for clause in formula.iter() {
            self.add_clause(clause);
        }
    }
}

impl ExtendFormula for CnfFormula {
    fn add_clause(&mut self, clause: &[Lit]) {
        let begin = self.lits.len();
        self.lits.extend_from_slice(clause);
        self.clauses.push(begin..self.lits.len());
        let greatest = clause.iter().map(|lit| lit.index() + 1).max();
        self.set_var_count(greatest.unwrap_or(0));
    }

    fn new_var(&mut self) -> Var {
        let var = Var::from_index(self.var_count);
        self.var_count += 1;
        var
    }
}

/// The formula of these clauses.
impl<Clauses, Clause> From<Clauses> for CnfFormula
where
    Clauses: IntoIterator<Item = Clause>,
    Clause: Borrow<[Lit]>,
{
    fn from(clauses: Clauses) -> CnfFormula {
        let mut formula = CnfFormula::new();
        for clause in clauses {
            formula.add_clause(clause.borrow());
        }
        formula
    }
}

/// Whether they have the same clauses in the same order.
impl PartialEq for CnfFormula {
    fn eq(&self, other: &CnfFormula) -> bool {
        self.iter().eq(other.iter())
    }
}

impl fmt::Debug for CnfFormula {
    fn fmt(&self, f: &mut fmt::Formatter<'_>) -> fmt::Result {
        f.debug_list().entries(self.iter()).finish()
    }
}
