//! Steps read from bytes, in the two versions of [the ported checker](../../../../../docs/reference/FORMATS.md#proof-bytes).
use crate::{ClauseHash, DeleteClauseProof, ProofStep};
use anyhow::Error;
use std::fmt;
use std::io::{BufRead, Read};
use varisat_formula::{Lit, Var};

/// Why bytes are no step.
#[derive(Clone, Copy, Debug, PartialEq, Eq)]
pub enum MalformedStep {
    /// A byte is no tag.
    UnknownTag,
    /// A number has a last group of zeros after its first byte, or is 2^64 or more.
    BadNumber,
    /// A field can't have this number.
    OutOfRange,
}

impl fmt::Display for MalformedStep {
    fn fmt(&self, f: &mut fmt::Formatter<'_>) -> fmt::Result {
        f.write_str(match self {
            MalformedStep::UnknownTag => "unknown step tag",
            MalformedStep::BadNumber => "malformed number",
            MalformedStep::OutOfRange => "value out of range",
        })
    }
}

impl std::error::Error for MalformedStep {}

/// How hashes are written.
#[derive(Clone, Copy)]
enum Hashes {
    /// As numbers.
    Numbers,
    /// In as many bytes as hold this many bits.
    Bits(u32),
}

/// A reader of the steps of one proof.
#[derive(Default)]
pub struct Parser {
    hashes: Option<Hashes>,
    lits: Vec<Lit>,
    propagation_hashes: Vec<ClauseHash>,
    units: Vec<(Lit, ClauseHash)>,
}

/// Literals and hashes are reserved for at most so many before they are read.
const RESERVED: u64 = 1 << 16;

impl Parser {
    /// Reads the next step.
    ///
    /// # Errors
    ///
    /// A [`MalformedStep`]; or the [`std::io::Error`] of a read, of the kind `UnexpectedEof` if the bytes end before the step does. What is read
    /// after a fault is not said.
    pub fn parse_step(&mut self, source: &mut impl BufRead) -> Result<ProofStep<'_>, Error> {
        let mut source = Fields(source);
        let tag = self.tag(&mut source)?;
        match tag {
            0x01..=0x04 => of_variable(tag, &mut source),
            0x05 | 0x07 | 0x0A | 0x0B => self.of_literals(tag, &mut source),
            0x06 | 0x0C => self.of_hashes(tag, &mut source),
            0x08 => self.of_units(&mut source),
            0x09 => self.width(&mut source),
            0x0D => Ok(ProofStep::End),
            _ => Err(MalformedStep::UnknownTag.into()),
        }
    }

    /// The tag of the next step; before the first one the mark of version 2 may stand.
    fn tag(&mut self, source: &mut Fields<impl Read>) -> Result<u8, Error> {
        let first = source.byte()?;
        if self.hashes.is_some() || first != 0 {
            self.hashes.get_or_insert(Hashes::Numbers);
            return Ok(first);
        }
        if source.byte()? != 2 {
            return Err(MalformedStep::UnknownTag.into());
        }
        self.hashes = Some(Hashes::Bits(64));
        source.byte()
    }

    fn of_literals(&mut self, tag: u8, source: &mut Fields<impl Read>) -> Result<ProofStep<'_>, Error> {
        let reason = if tag == 0x07 { source.below(3)? } else { 0 };
        source.lits(&mut self.lits)?;
        let clause = &self.lits[..];
        Ok(match (tag, reason) {
            (0x05, _) => ProofStep::AddClause { clause },
            (0x07, 0) => ProofStep::DeleteClause { clause, proof: DeleteClauseProof::Redundant },
            (0x07, 1) => ProofStep::DeleteClause { clause, proof: DeleteClauseProof::Satisfied },
            (0x07, _) => ProofStep::DeleteClause { clause, proof: DeleteClauseProof::Simplified },
            (0x0A, _) => ProofStep::Model { assignment: clause },
            (_, _) => ProofStep::Assumptions { assumptions: clause },
        })
    }

    fn of_hashes(&mut self, tag: u8, source: &mut Fields<impl Read>) -> Result<ProofStep<'_>, Error> {
        let redundant = tag == 0x06 && source.below(2)? == 1;
        source.lits(&mut self.lits)?;
        let count = source.number()?;
        let width = self.hashes;
        fill(&mut self.propagation_hashes, count, || source.hash(width))?;
        let (clause, propagation_hashes) = (&self.lits[..], &self.propagation_hashes[..]);
        Ok(match tag {
            0x06 => ProofStep::AtClause { redundant, clause, propagation_hashes },
            _ => ProofStep::FailedAssumptions { failed_core: clause, propagation_hashes },
        })
    }

    fn of_units(&mut self, source: &mut Fields<impl Read>) -> Result<ProofStep<'_>, Error> {
        let count = source.number()?;
        let width = self.hashes;
        fill(&mut self.units, count, || Ok((source.lit()?, source.hash(width)?)))?;
        Ok(ProofStep::UnitClauses { units: &self.units })
    }

    fn width(&mut self, source: &mut Fields<impl Read>) -> Result<ProofStep<'_>, Error> {
        let bits = source.below(1 << 32)? as u32;
        if let (Some(Hashes::Bits(width)), 1..=64) = (&mut self.hashes, bits) {
            *width = bits;
        }
        Ok(ProofStep::ChangeHashBits { bits })
    }
}

fn of_variable(tag: u8, source: &mut Fields<impl Read>) -> Result<ProofStep<'static>, Error> {
    let global = Var::from_index(source.below(Var::max_count() as u64)? as usize);
    Ok(match tag {
        0x01 => ProofStep::SolverVarName { global, solver: source.name()? },
        0x02 => ProofStep::UserVarName { global, user: source.name()? },
        0x03 => ProofStep::DeleteVar { var: global },
        _ => ProofStep::ChangeSamplingMode { var: global, sample: source.below(2)? == 1 },
    })
}

/// Fills a list with as many items.
fn fill<T>(list: &mut Vec<T>, count: u64, mut item: impl FnMut() -> Result<T, Error>) -> Result<(), Error> {
    list.clear();
    list.reserve(count.min(RESERVED) as usize);
    for _ in 0..count {
        list.push(item()?);
    }
    Ok(())
}

/// Fields of steps, read from bytes.
struct Fields<'a, R>(&'a mut R);

impl<R: Read> Fields<'_, R> {
    fn byte(&mut self) -> Result<u8, Error> {
        let mut byte = [0];
        self.0.read_exact(&mut byte)?;
        Ok(byte[0])
    }

    /// A number, in groups of seven bits, the low one first.
    fn number(&mut self) -> Result<u64, Error> {
        let mut value = 0;
        for group in 0..10 {
            let byte = self.byte()?;
            let is_too_large = group == 9 && byte > 1;
            let ends_in_zero = group > 0 && byte == 0;
            if is_too_large || ends_in_zero {
                return Err(MalformedStep::BadNumber.into());
            }
            value |= u64::from(byte & 0x7F) << (7 * group);
            if byte < 0x80 {
                return Ok(value);
            }
        }
        Err(MalformedStep::BadNumber.into())
    }

    fn below(&mut self, bound: u64) -> Result<u64, Error> {
        let value = self.number()?;
        if value < bound {
            Ok(value)
        } else {
            Err(MalformedStep::OutOfRange.into())
        }
    }

    fn name(&mut self) -> Result<Option<Var>, Error> {
        let name = self.below(Var::max_count() as u64 + 1)? as usize;
        Ok(name.checked_sub(1).map(Var::from_index))
    }

    fn lit(&mut self) -> Result<Lit, Error> {
        Ok(Lit::from_code(self.below(2 * Var::max_count() as u64)? as usize))
    }

    fn lits(&mut self, lits: &mut Vec<Lit>) -> Result<(), Error> {
        let count = self.number()?;
        fill(lits, count, || self.lit())
    }

    fn hash(&mut self, hashes: Option<Hashes>) -> Result<ClauseHash, Error> {
        let width = match hashes {
            Some(Hashes::Bits(width)) => width,
            _ => return self.number(),
        };
        let mut bytes = [0; 8];
        self.0.read_exact(&mut bytes[..(width as usize + 7) / 8])?;
        let hash = u64::from_le_bytes(bytes);
        if width < 64 && hash >> width != 0 {
            return Err(MalformedStep::OutOfRange.into());
        }
        Ok(hash)
    }
}
