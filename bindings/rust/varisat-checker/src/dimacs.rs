//! Formulas read from DIMACS text, as [FORMATS](../../../../docs/reference/FORMATS.md#dimacs-text) has it.
use std::error::Error;
use std::fmt;
use std::io::{self, BufRead};
use varisat_formula::{Lit, Var};

/// What is wrong in a line.
#[derive(Clone, Copy, Debug, PartialEq, Eq)]
pub enum DimacsKind {
    /// A word is no number.
    BadNumber,
    /// A variable is above [`Var::max_count`].
    VarTooLarge,
    /// A line that begins with `p` is no header.
    BadHeader,
    /// A header comes after a number or another header.
    LateHeader,
    /// The formula ends within a clause.
    UnterminatedClause,
}

impl fmt::Display for DimacsKind {
    fn fmt(&self, f: &mut fmt::Formatter<'_>) -> fmt::Result {
        f.write_str(match self {
            DimacsKind::BadNumber => "bad number",
            DimacsKind::VarTooLarge => "variable too large",
            DimacsKind::BadHeader => "bad header",
            DimacsKind::LateHeader => "late header",
            DimacsKind::UnterminatedClause => "unterminated clause",
        })
    }
}

/// The first fault of a text.
#[derive(Clone, Copy, Debug, PartialEq, Eq)]
pub struct DimacsFault {
    /// The line, counted from 1.
    pub line: usize,
    /// What is wrong in it.
    pub kind: DimacsKind,
}

impl fmt::Display for DimacsFault {
    fn fmt(&self, f: &mut fmt::Formatter<'_>) -> fmt::Result {
        write!(f, "line {}: {}", self.line, self.kind)
    }
}

impl Error for DimacsFault {}

/// A reader of clauses.
pub(crate) struct Clauses<R> {
    source: R,
    line: usize,
    clause: Vec<Lit>,
    /// Whether a header or a number was read.
    has_begun: bool,
}

impl<R: BufRead> Clauses<R> {
    pub fn new(source: R) -> Clauses<R> {
        Clauses { source, line: 0, clause: Vec::new(), has_begun: false }
    }

    /// Gives each clause to `take`, up to the first fault.
    pub fn give<E>(mut self, mut take: impl FnMut(&[Lit]) -> Result<(), E>) -> Result<(), E>
    where
        E: From<io::Error> + From<DimacsFault>,
    {
        let mut line = Vec::new();
        loop {
            line.clear();
            self.source.read_until(b'\n', &mut line)?;
            self.line += 1;
            let mut words = line.split(|byte| b" \t\r\n".contains(byte)).filter(|word| !word.is_empty());
            match words.clone().next().map(|word| word[0]) {
                Some(b'c') => (),
                Some(b'p') => self.header(words)?,
                Some(b'%') => break,
                _ => words.try_for_each(|word| self.number(word, &mut take))?,
            }
            if line.last() != Some(&b'\n') {
                break;
            }
        }
        if self.clause.is_empty() {
            return Ok(());
        }
        Err(self.fault(DimacsKind::UnterminatedClause).into())
    }

    fn fault(&self, kind: DimacsKind) -> DimacsFault {
        DimacsFault { line: self.line, kind }
    }

    fn header<'w>(&mut self, mut words: impl Iterator<Item = &'w [u8]>) -> Result<(), DimacsFault> {
        if self.has_begun {
            return Err(self.fault(DimacsKind::LateHeader));
        }
        self.has_begun = true;
        let begins = words.next() == Some(b"p") && words.next() == Some(b"cnf");
        let counts = words.by_ref().take(2).filter(|word| word.iter().all(u8::is_ascii_digit)).count();
        if begins && counts == 2 && words.next().is_none() {
            return Ok(());
        }
        Err(self.fault(DimacsKind::BadHeader))
    }

    fn number<E: From<DimacsFault>>(
        &mut self,
        word: &[u8],
        take: &mut impl FnMut(&[Lit]) -> Result<(), E>,
    ) -> Result<(), E> {
        self.has_begun = true;
        let (sign, digits) = match word.strip_prefix(b"-") {
            Some(digits) => (-1, digits),
            None => (1, word),
        };
        if digits.is_empty() || !digits.iter().all(u8::is_ascii_digit) {
            return Err(self.fault(DimacsKind::BadNumber).into());
        }
        match (sign, value_of(digits)) {
            (1, 0) => {
                let outcome = take(&self.clause);
                self.clause.clear();
                outcome
            }
            (_, 0) => Err(self.fault(DimacsKind::BadNumber).into()),
            (_, value) if value > Var::max_count() as isize => Err(self.fault(DimacsKind::VarTooLarge).into()),
            (_, value) => {
                self.clause.push(Lit::from_dimacs(sign * value));
                Ok(())
            }
        }
    }
}

/// The value of digits; all that are too large for a variable have one value.
fn value_of(digits: &[u8]) -> isize {
    let most = Var::max_count() as isize + 1;
    digits.iter().fold(0, |value, digit| (10 * value + isize::from(digit - b'0')).min(most))
}
