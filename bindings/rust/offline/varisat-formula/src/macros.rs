//! Literals, variables, clauses and formulas by their DIMACS numbers.

/// The variable of a DIMACS number: `var!(3)`.
#[macro_export]
macro_rules! var {
    ($number:expr) => {
        $crate::Var::from_dimacs($number)
    };
}

/// An array of variables: `vars![1, 2]`.
#[macro_export]
macro_rules! vars {
    ($($number:expr),* $(,)?) => {
        [$($crate::var!($number)),*]
    };
}

/// The literal of a DIMACS number: `lit!(-3)`.
#[macro_export]
macro_rules! lit {
    ($number:expr) => {
        $crate::Lit::from_dimacs($number)
    };
}

/// An array of literals: `lits![1, -2]`.
#[macro_export]
macro_rules! lits {
    ($($number:expr),* $(,)?) => {
        [$($crate::lit!($number)),*]
    };
}

/// An array of clauses, as slices: `cnf![1, 2; -1, -2;]`.
#[macro_export]
macro_rules! cnf {
    ($($($number:expr),+);* $(;)?) => {
        [$(&[$($crate::lit!($number)),+] as &[$crate::Lit]),*]
    };
}

/// A formula: `cnf_formula![1, 2; -1, -2;]`.
#[macro_export]
macro_rules! cnf_formula {
    ($($clauses:tt)*) => {
        $crate::CnfFormula::from($crate::cnf![$($clauses)*].iter().copied())
    };
}
