//! Literals and variables.
use std::fmt;
use std::ops::{BitXor, Not};

/// A number that holds the code of any literal.
pub type LitIdx = u32;

/// How many variables there can be.
const MOST: usize = 1 << 28;

/// A variable, named by its index.
#[derive(Clone, Copy, PartialEq, Eq, PartialOrd, Ord, Hash)]
pub struct Var(LitIdx);

impl Var {
    /// How many variables there can be.
    pub const fn max_count() -> usize {
        MOST
    }

    /// The variable with the greatest index.
    pub const fn max_var() -> Var {
        Var(MOST as LitIdx - 1)
    }

    /// The variable of an index, counted from 0.
    ///
    /// # Panics
    ///
    /// If the index is not below [`Var::max_count`].
    pub fn from_index(index: usize) -> Var {
        assert!(index < MOST, "{index} is the index of no variable");
        Var(index as LitIdx)
    }

    /// The variable of a DIMACS number.
    ///
    /// # Panics
    ///
    /// If the number is below 1 or above [`Var::max_count`].
    pub fn from_dimacs(number: isize) -> Var {
        assert!(number > 0, "{number} is no variable");
        Var::from_index(number as usize - 1)
    }

    /// Its index, counted from 0.
    pub const fn index(self) -> usize {
        self.0 as usize
    }

    /// Its DIMACS number.
    pub const fn to_dimacs(self) -> isize {
        self.0 as isize + 1
    }

    /// Its literal: itself if `polarity` is true, else its negation.
    pub fn lit(self, polarity: bool) -> Lit {
        Lit(2 * self.0 + LitIdx::from(!polarity))
    }

    /// The literal that is the variable itself.
    pub fn positive(self) -> Lit {
        self.lit(true)
    }

    /// The literal that is its negation.
    pub fn negative(self) -> Lit {
        self.lit(false)
    }
}

impl fmt::Debug for Var {
    fn fmt(&self, f: &mut fmt::Formatter<'_>) -> fmt::Result {
        fmt::Display::fmt(self, f)
    }
}

impl fmt::Display for Var {
    fn fmt(&self, f: &mut fmt::Formatter<'_>) -> fmt::Result {
        self.to_dimacs().fmt(f)
    }
}

/// A variable or its negation, named by its code: twice the index of the variable, and 1 more if it is negative.
#[derive(Clone, Copy, PartialEq, Eq, PartialOrd, Ord, Hash)]
pub struct Lit(LitIdx);

impl Lit {
    /// The literal of a DIMACS number.
    ///
    /// # Panics
    ///
    /// If the number is 0, or beyond [`Var::max_count`] on either side.
    pub fn from_dimacs(number: isize) -> Lit {
        assert!(number != 0, "0 is no literal");
        Lit::from_index(number.unsigned_abs() - 1, number > 0)
    }

    /// The literal of a variable: itself if `polarity` is true, else its negation.
    pub fn from_var(var: Var, polarity: bool) -> Lit {
        var.lit(polarity)
    }

    /// The literal that is the variable itself.
    pub fn positive(var: Var) -> Lit {
        var.positive()
    }

    /// The literal that is the negation of the variable.
    pub fn negative(var: Var) -> Lit {
        var.negative()
    }

    /// The literal of the variable of an index.
    ///
    /// # Panics
    ///
    /// As [`Var::from_index`].
    pub fn from_index(index: usize, polarity: bool) -> Lit {
        Var::from_index(index).lit(polarity)
    }

    /// The literal of a code.
    ///
    /// # Panics
    ///
    /// If the code is not below twice [`Var::max_count`].
    pub fn from_code(code: usize) -> Lit {
        Lit::from_index(code >> 1, code & 1 == 0)
    }

    /// Its DIMACS number.
    pub fn to_dimacs(self) -> isize {
        let number = self.var().to_dimacs();
        if self.is_negative() {
            -number
        } else {
            number
        }
    }

    /// The index of its variable.
    pub fn index(self) -> usize {
        self.var().index()
    }

    /// Its variable.
    pub fn var(self) -> Var {
        Var(self.0 >> 1)
    }

    /// Its code.
    pub fn code(self) -> usize {
        self.0 as usize
    }

    /// Whether it is the negation of a variable.
    pub fn is_negative(self) -> bool {
        self.0 & 1 == 1
    }

    /// Whether it is a variable.
    pub fn is_positive(self) -> bool {
        !self.is_negative()
    }

    /// The literal of another variable, with the same sign.
    pub fn map_var(self, f: impl FnOnce(Var) -> Var) -> Lit {
        f(self.var()).lit(self.is_positive())
    }
}

impl Not for Lit {
    type Output = Lit;

    fn not(self) -> Lit {
        Lit(self.0 ^ 1)
    }
}

/// The negation if the right side is true, else the literal.
impl BitXor<bool> for Lit {
    type Output = Lit;

    fn bitxor(self, negates: bool) -> Lit {
        Lit(self.0 ^ LitIdx::from(negates))
    }
}

impl From<Var> for Lit {
    fn from(var: Var) -> Lit {
        var.positive()
    }
}

impl fmt::Debug for Lit {
    fn fmt(&self, f: &mut fmt::Formatter<'_>) -> fmt::Result {
        fmt::Display::fmt(self, f)
    }
}

impl fmt::Display for Lit {
    fn fmt(&self, f: &mut fmt::Formatter<'_>) -> fmt::Result {
        self.to_dimacs().fmt(f)
    }
}
