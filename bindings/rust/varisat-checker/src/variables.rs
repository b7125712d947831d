//! The variables of a proof: their names and modes, and their numbers in the library.
use cefindrato::checker as library;
use std::collections::HashSet;
use varisat_formula::{Lit, Var};

#[derive(Copy, Clone, PartialEq, Eq)]
pub(crate) enum SamplingMode {
    Sample,
    Witness,
    Hide,
}

pub(crate) struct VarData {
    pub user_var: Option<Var>,
    pub sampling_mode: SamplingMode,
    number: u32,
}

/// No number is left for a variable in the library.
#[derive(Debug)]
pub(crate) struct NoNumber;

/// The known variables. If one is known, all before it are.
#[derive(Default)]
pub(crate) struct Variables {
    vars: Vec<VarData>,
    user_vars: HashSet<Var>,
    /// How many variables had another number in the library before.
    renewed: usize,
}

impl Variables {
    /// Makes a variable known, in mode `Sample`.
    pub fn ensure(&mut self, var: Var) -> Result<(), NoNumber> {
        if self.vars.len() > var.index() {
            return Ok(());
        }
        let last = self.number_of(var)?;
        let first = (self.vars.len() + self.renewed) as u32;
        let numbered = |number| VarData { user_var: None, sampling_mode: SamplingMode::Sample, number };
        self.vars.extend((first..=last).map(numbered));
        Ok(())
    }

    pub fn get(&self, var: Var) -> Option<&VarData> {
        self.vars.get(var.index())
    }

    pub fn is_known(&self, var: Var) -> bool {
        self.get(var).is_some()
    }

    /// Whether models are sampled over a variable, or it is not known.
    pub fn is_sampled(&self, var: Var) -> bool {
        self.get(var).map_or(true, |data| data.sampling_mode == SamplingMode::Sample)
    }

    /// The name by which the solver's caller knows a variable: one that it got, or its own while models are sampled over it.
    pub fn user_var(&self, var: Var) -> Option<Var> {
        let data = self.get(var)?;
        let own = (data.sampling_mode == SamplingMode::Sample).then_some(var);
        data.user_var.or(own)
    }

    pub fn is_used(&self, user_var: Var) -> bool {
        self.user_vars.contains(&user_var)
    }

    pub fn set_name(&mut self, var: Var, user_var: Var) {
        self.user_vars.insert(user_var);
        self.vars[var.index()].user_var = Some(user_var);
    }

    pub fn hide(&mut self, var: Var) {
        let data = &mut self.vars[var.index()];
        data.sampling_mode = SamplingMode::Hide;
        if let Some(user_var) = data.user_var.take() {
            self.user_vars.remove(&user_var);
        }
    }

    pub fn set_mode(&mut self, var: Var, sampling_mode: SamplingMode) {
        self.vars[var.index()].sampling_mode = sampling_mode;
    }

    /// Gives a variable another number in the library, for a new meaning.
    pub fn renew(&mut self, var: Var) -> Result<(), NoNumber> {
        let number = self.vars.len() + self.renewed;
        if number >= Var::max_count() {
            return Err(NoNumber);
        }
        self.renewed += 1;
        self.vars[var.index()].number = number as u32;
        Ok(())
    }

    /// The number in the library, counted from 0; of an unknown variable, the one that it would get.
    fn number_of(&self, var: Var) -> Result<u32, NoNumber> {
        match self.get(var) {
            Some(data) => Ok(data.number),
            None if var.index() + self.renewed < Var::max_count() => Ok((var.index() + self.renewed) as u32),
            None => Err(NoNumber),
        }
    }

    /// Literals as the library has them.
    pub fn numbered(&self, lits: &[Lit]) -> Result<Vec<library::Lit>, NoNumber> {
        let numbered = |lit: &Lit| Ok(library_lit(self.number_of(lit.var())?, lit.is_negative()));
        lits.iter().map(numbered).collect()
    }

    /// The literals of the known variable that has the greatest number in the library.
    pub fn greatest(&self) -> Option<[library::Lit; 2]> {
        let greatest = (self.vars.len() + self.renewed).checked_sub(1)? as u32;
        Some([library_lit(greatest, false), library_lit(greatest, true)])
    }
}

fn library_lit(number: u32, is_negative: bool) -> library::Lit {
    library::Lit::from_code(2 * number as usize + usize::from(is_negative))
}
