//! Literals, by their DIMACS numbers.
use std::fmt;
use std::ops::Not;

/// The greatest DIMACS number of a variable.
const MOST: isize = 1 << 28;

/// A variable or its negation.
#[derive(Clone, Copy, PartialEq, Eq, Hash)]
#[repr(transparent)]
pub struct Lit(i32);

impl Lit {
    /// The literal of a DIMACS number.
    ///
    /// # Panics
    ///
    /// If the number is 0, or beyond 2^28 on either side.
    pub fn from_dimacs(number: isize) -> Lit {
        assert!(number != 0 && (-MOST..=MOST).contains(&number), "{number} is no literal");
        Lit(number as i32)
    }

    /// The literal of a code.
    ///
    /// # Panics
    ///
    /// If the code is 2^29 or more.
    pub fn from_code(code: usize) -> Lit {
        let number = code as isize / 2 + 1;
        Lit::from_dimacs(if code % 2 == 0 { number } else { -number })
    }

    /// Its DIMACS number.
    pub fn to_dimacs(self) -> isize {
        self.0 as isize
    }

    /// Its code: twice the number of its variable, counted from 0, and 1 more if it is negative.
    pub fn code(self) -> usize {
        2 * (self.0.unsigned_abs() as usize - 1) + usize::from(self.is_negative())
    }

    /// Whether it is the negation of a variable.
    pub fn is_negative(self) -> bool {
        self.0 < 0
    }

    /// Whether it is a variable.
    pub fn is_positive(self) -> bool {
        self.0 > 0
    }
}

impl Not for Lit {
    type Output = Lit;

    fn not(self) -> Lit {
        Lit(-self.0)
    }
}

impl fmt::Debug for Lit {
    fn fmt(&self, f: &mut fmt::Formatter<'_>) -> fmt::Result {
        fmt::Display::fmt(self, f)
    }
}

impl fmt::Display for Lit {
    fn fmt(&self, f: &mut fmt::Formatter<'_>) -> fmt::Result {
        self.0.fmt(f)
    }
}

/// The literal of a DIMACS number: `lit!(-3)`.
#[macro_export]
macro_rules! lit {
    ($number:expr) => {
        $crate::checker::Lit::from_dimacs($number)
    };
}
