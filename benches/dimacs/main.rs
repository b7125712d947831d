//! The same work in Rust: the twin of main.rt, with the reader written out. It reads in two ways:
//! short numbers out of the bytes ahead, as the proved reader does, and all bytes one by one.
use std::fmt::Write;
use std::io::{self, Read};
use std::time::Instant;

const CLAUSES: u32 = 4_150_000;
const CAPACITY: usize = 32768;
const MAX_VALUE: u64 = 1 << 28;
const FEW_DIGITS: usize = 9;

#[derive(Clone, Copy)]
enum Stop {
    End,
    Read,
    Bad,
}

struct Source<R> {
    inner: R,
    buffer: Vec<u8>,
    start: usize,
    end: usize,
}

impl<R: Read> Source<R> {
    #[inline(never)]
    fn refill(&mut self) -> Result<(), Stop> {
        self.start = 0;
        self.end = self.inner.read(&mut self.buffer).map_err(|_| Stop::Read)?;
        if self.end == 0 { Err(Stop::End) } else { Ok(()) }
    }

    #[inline(always)]
    fn next_byte(&mut self) -> Result<u8, Stop> {
        if self.start == self.end {
            self.refill()?;
        }
        let byte = self.buffer[self.start];
        self.start += 1;
        Ok(byte)
    }
}

struct Reader<R, const AHEAD: bool> {
    source: Source<R>,
    line: u64,
    in_line: bool,
    seen: bool,
    clauses: u64,
    vars: u32,
}

fn is_blank(byte: u8) -> bool {
    byte == b' ' || byte == b'\t' || byte == b'\r'
}

fn ends_word(byte: u8) -> bool {
    byte <= b' ' && (is_blank(byte) || byte == b'\n')
}

/// A number of up to nine digits in front: its sign, its value, how many bytes it takes, and the one after it.
#[inline(always)]
fn short_number(bytes: &[u8]) -> Option<(bool, u64, usize, u8)> {
    if bytes.len() < FEW_DIGITS + 2 {
        return None;
    }
    let negative = bytes[0] == b'-';
    let digits = &bytes[negative as usize..];
    let mut value = 0u64;
    let mut len = 0;
    while len < FEW_DIGITS && digits[len].is_ascii_digit() {
        value = value * 10 + (digits[len] - b'0') as u64;
        len += 1;
    }
    let end = digits[len];
    if len == 0 || !ends_word(end) {
        return None;
    }
    Some((negative, value, negative as usize + len, end))
}

impl<R: Read, const AHEAD: bool> Reader<R, AHEAD> {
    fn new(inner: R) -> Self {
        let source = Source { inner, buffer: vec![0; CAPACITY], start: 0, end: 0 };
        Reader { source, line: 1, in_line: false, seen: false, clauses: 0, vars: 0 }
    }

    fn end_line(&mut self) {
        self.line = self.line.saturating_add(1);
        self.in_line = false;
    }

    fn skip_line(&mut self) -> Result<(), Stop> {
        while self.source.next_byte()? != b'\n' {}
        self.end_line();
        Ok(())
    }

    /// A number that is not 0 as a code, or none for the end of the clause.
    fn number(&mut self, first: u8) -> Result<Option<u32>, Stop> {
        let negative = first == b'-';
        let mut digits = !negative;
        let mut value = 0u64;
        let mut byte = first;
        if negative {
            byte = self.source.next_byte()?;
        }
        loop {
            if ends_word(byte) {
                break;
            }
            if !byte.is_ascii_digit() {
                return Err(Stop::Bad);
            }
            digits = true;
            value = value.min(MAX_VALUE + 1) * 10 + (byte - b'0') as u64;
            byte = self.source.next_byte()?;
        }
        if !digits {
            return Err(Stop::Bad);
        }
        self.end_number(negative, value, byte)
    }

    #[inline(always)]
    fn end_number(&mut self, negative: bool, value: u64, byte: u8) -> Result<Option<u32>, Stop> {
        if value > MAX_VALUE || (negative && value == 0) {
            return Err(Stop::Bad);
        }
        self.seen = true;
        self.in_line = true;
        if byte == b'\n' {
            self.end_line();
        }
        Ok(if value == 0 { None } else { Some((value as u32 - 1) * 2 + negative as u32) })
    }

    #[inline(always)]
    fn take(&mut self, number: Option<u32>, into: &mut Vec<u32>) -> bool {
        match number {
            Some(code) => {
                into.push(code);
                false
            }
            None => {
                self.clauses = self.clauses.saturating_add(1);
                self.vars = into.iter().fold(self.vars, |most, code| most.max((code >> 1) + 1));
                true
            }
        }
    }

    fn next_clause(&mut self, into: &mut Vec<u32>) -> Result<bool, Stop> {
        into.clear();
        loop {
            if AHEAD {
                let ahead = &self.source.buffer[self.source.start..self.source.end];
                if let Some((negative, value, len, end)) = short_number(ahead) {
                    self.source.start += len + 1;
                    let number = self.end_number(negative, value, end)?;
                    if self.take(number, into) {
                        return Ok(true);
                    }
                    continue;
                }
            }
            let byte = match self.source.next_byte() {
                Ok(byte) => byte,
                Err(Stop::End) => return Ok(false),
                Err(stop) => return Err(stop),
            };
            if byte == b'\n' {
                self.end_line();
            } else if is_blank(byte) {
            } else if !self.in_line && (byte == b'c' || byte == b'p') {
                self.skip_line()?;
            } else {
                let number = self.number(byte)?;
                if self.take(number, into) {
                    return Ok(true);
                }
            }
        }
    }
}

fn next(seed: u64) -> u64 {
    seed.wrapping_mul(6364136223846793005).wrapping_add(1442695040888963407)
}

fn text() -> String {
    let mut text = String::new();
    let mut seed = 1u64;
    for _ in 0..CLAUSES {
        for _ in 0..3 {
            seed = next(seed);
            let var = (seed >> 33) % 1_000_000 + 1;
            let sign = if seed & (1 << 32) == 0 { "-" } else { "" };
            write!(text, "{sign}{var} ").unwrap();
        }
        text.push_str("0\n");
    }
    text
}

fn read<const AHEAD: bool>(text: &str) -> io::Result<()> {
    for _ in 0..5 {
        let start = Instant::now();
        let mut reader = Reader::<_, AHEAD>::new(text.as_bytes());
        let mut lits = Vec::new();
        let mut sum = 0u64;
        while reader.next_clause(&mut lits).map_err(|_| io::ErrorKind::InvalidData)? {
            for lit in &lits {
                sum = sum.wrapping_add(*lit as u64);
            }
        }
        let took = start.elapsed().as_millis();
        let (size, clauses, vars) = (text.len(), reader.clauses, reader.vars);
        println!("{size} bytes, {clauses} clauses, {vars} variables, sum {sum}: {took} ms");
    }
    Ok(())
}

fn main() -> io::Result<()> {
    let text = text();
    println!("numbers out of the bytes ahead:");
    read::<true>(&text)?;
    println!("byte by byte:");
    read::<false>(&text)
}
