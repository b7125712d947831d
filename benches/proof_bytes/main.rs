//! The same work in Rust: the twin of main.rt, with the reader written out.
use std::io::{self, Read};
use std::time::Instant;

const SIZE: usize = 100_000_000;
const CAPACITY: usize = 32768;

#[derive(Clone, Copy, Debug)]
enum Stop {
    End,
    Read,
    Malformed,
}

struct Source<R> {
    inner: R,
    buffer: Vec<u8>,
    start: usize,
    end: usize,
}

impl<R: Read> Source<R> {
    #[inline(never)]
    fn refill(&mut self) -> Result<(), Stop> {
        self.start = 0;
        self.end = self.inner.read(&mut self.buffer).map_err(|_| Stop::Read)?;
        if self.end == 0 { Err(Stop::End) } else { Ok(()) }
    }

    #[inline(always)]
    fn byte(&mut self) -> Result<u8, Stop> {
        if self.start == self.end {
            self.refill()?;
        }
        let byte = self.buffer[self.start];
        self.start += 1;
        Ok(byte)
    }

    fn number(&mut self) -> Result<u64, Stop> {
        let first = self.byte()?;
        if first < 128 {
            return Ok(first as u64);
        }
        let mut value = (first - 128) as u64;
        let mut weight = 128u64;
        for _ in 0..8 {
            let byte = self.byte()?;
            if byte == 0 {
                return Err(Stop::Malformed);
            }
            if byte < 128 {
                return Ok(value + weight * byte as u64);
            }
            value += weight * (byte - 128) as u64;
            weight *= 128;
        }
        if self.byte()? != 1 {
            return Err(Stop::Malformed);
        }
        Ok(value + weight)
    }

    fn below(&mut self, limit: u64) -> Result<u64, Stop> {
        let n = self.number()?;
        if n < limit { Ok(n) } else { Err(Stop::Malformed) }
    }

    fn wide(&mut self, width: u32) -> Result<u64, Stop> {
        let mut value = 0u64;
        let mut weight = 1u64;
        for _ in 0..(width - 1) / 8 {
            value += weight * self.byte()? as u64;
            weight *= 256;
        }
        value += weight * self.byte()? as u64;
        if width == 64 || value < 1 << width { Ok(value) } else { Err(Stop::Malformed) }
    }
}

#[derive(Clone, Copy)]
enum Format {
    Start,
    Numbers,
    Bytes(u32),
}

enum Step<'a> {
    AddClause(&'a [u32]),
    AtClause { redundant: bool, clause: &'a [u32], hashes: &'a [u64] },
    End,
}

struct Reader<R> {
    source: Source<R>,
    format: Format,
    lits: Vec<u32>,
    hashes: Vec<u64>,
}

impl<R: Read> Reader<R> {
    fn new(inner: R) -> Self {
        let source = Source { inner, buffer: vec![0; CAPACITY], start: 0, end: 0 };
        Reader { source, format: Format::Start, lits: Vec::new(), hashes: Vec::new() }
    }

    fn tag(&mut self) -> Result<u8, Stop> {
        let first = self.source.byte()?;
        if let Format::Start = self.format {
            self.format = Format::Numbers;
            if first == 0 {
                if self.source.byte()? != 2 {
                    return Err(Stop::Malformed);
                }
                self.format = Format::Bytes(64);
                return self.source.byte();
            }
        }
        Ok(first)
    }

    fn read_lits(&mut self) -> Result<(), Stop> {
        self.lits.clear();
        for _ in 0..self.source.number()? {
            self.lits.push(self.source.below(1 << 29)? as u32);
        }
        Ok(())
    }

    fn read_hashes(&mut self) -> Result<(), Stop> {
        self.hashes.clear();
        for _ in 0..self.source.number()? {
            self.hashes.push(match self.format {
                Format::Bytes(width) => self.source.wide(width)?,
                _ => self.source.number()?,
            });
        }
        Ok(())
    }

    fn next_step(&mut self) -> Result<Step<'_>, Stop> {
        match self.tag()? {
            5 => {
                self.read_lits()?;
                Ok(Step::AddClause(&self.lits))
            }
            6 => {
                let redundant = self.source.below(2)? == 1;
                self.read_lits()?;
                self.read_hashes()?;
                Ok(Step::AtClause { redundant, clause: &self.lits, hashes: &self.hashes })
            }
            13 => Ok(Step::End),
            _ => Err(Stop::Malformed),
        }
    }
}

fn push_number(text: &mut Vec<u8>, n: u64) {
    let mut rest = n;
    while rest >= 128 {
        text.push(128 + (rest % 128) as u8);
        rest /= 128;
    }
    text.push(rest as u8);
}

fn next(seed: u64) -> u64 {
    seed.wrapping_mul(6364136223846793005).wrapping_add(1442695040888963407)
}

fn text(version: u8) -> Vec<u8> {
    let mut text = Vec::with_capacity(SIZE + 100);
    if version == 2 {
        text.extend_from_slice(&[0, 2]);
    }
    let mut seed = 1u64;
    while text.len() < SIZE {
        let mut lits = [0u64; 3];
        for lit in &mut lits {
            seed = next(seed);
            *lit = (seed >> 33) % 2_000_000;
        }
        text.push(6);
        push_number(&mut text, seed & 1);
        push_number(&mut text, 3);
        lits.iter().for_each(|lit| push_number(&mut text, *lit));
        push_number(&mut text, 2);
        for hash in [next(seed), next(seed ^ 1)] {
            if version == 1 {
                push_number(&mut text, hash);
            } else {
                text.extend_from_slice(&hash.to_le_bytes());
            }
        }
    }
    text
}

fn main() -> io::Result<()> {
    for version in [1, 2] {
        let text = text(version);
        for _ in 0..5 {
            let start = Instant::now();
            let mut reader = Reader::new(text.as_slice());
            let mut steps = 0u64;
            let mut sum = 0u64;
            loop {
                match reader.next_step() {
                    Ok(Step::AddClause(clause)) => sum = sum.wrapping_add(clause.len() as u64),
                    Ok(Step::AtClause { redundant, clause, hashes }) => {
                        steps += 1;
                        sum = sum.wrapping_add(redundant as u64);
                        clause.iter().for_each(|lit| sum = sum.wrapping_add(*lit as u64));
                        hashes.iter().for_each(|hash| sum = sum.wrapping_add(*hash));
                    }
                    _ => break,
                }
            }
            let took = start.elapsed().as_millis();
            println!("version {version}: {} bytes, {steps} steps, sum {sum}: {took} ms", text.len());
        }
    }
    Ok(())
}
