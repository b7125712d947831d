//! Literals, variables and formulas, by the names of the crate `varisat-formula` 0.2.2, as far as programs for `varisat-checker` need
//! them: it is here so that these build without a network.
//!
//! The sources of that crate were not at hand: how its types print, and which of them are equal, may differ.
#![warn(missing_docs)]

pub mod cnf;
pub mod lit;
mod macros;

pub use cnf::{CnfFormula, ExtendFormula};
pub use lit::{Lit, Var};
