//! Calls of a checker as lines of text.
use crate::answers::{answer, text_answer};
use std::io::{self, ErrorKind, Read};
use varisat_checker::internal::SelfChecker;
use varisat_checker::Checker;
use varisat_formula::{CnfFormula, Lit, Var};
use varisat_internal_proof::{ClauseHash, DeleteClauseProof, ProofStep};

/// What a line gives.
pub enum Made {
    Text(String),
    /// Upstream has no such call, which looks at what is recorded.
    Nothing,
    /// Upstream does otherwise, so that what follows may differ too.
    Elsewhere,
}

/// Makes the call of a line.
pub fn make(checker: &mut Checker, line: &str) -> Made {
    let (name, rest) = line.split_once(' ').unwrap_or((line, ""));
    Made::Text(match name {
        "add" => answer(checker.add_clause(&lits(rest))),
        "given" => answer(checker.add_formula(&clauses(rest.split('|')))),
        "formula" => add_formula(checker, &clauses(rest.split_terminator('|'))),
        "delayed" => answer(checker.self_check_delayed_steps()),
        "unsat" => checker.unsat().to_string(),
        "proof" => answer(checker.check_proof(&bytes(rest)[..])),
        "long" => answer(checker.check_proof(&long(rest)[..])),
        "dimacs" => text_answer(checker.add_dimacs_cnf(rest.replace('|', "\n").as_bytes())),
        "failing" => return fail(checker, rest),
        "says" => said(checker, rest),
        "inputs" | "counts" | "logs" | "shows" | "count" => return Made::Nothing,
        _ => check_step(checker, name, rest),
    })
}

fn clauses<'s>(clauses: impl Iterator<Item = &'s str>) -> CnfFormula {
    CnfFormula::from(clauses.map(lits))
}

fn add_formula(checker: &mut Checker, formula: &CnfFormula) -> String {
    match checker.add_formula(formula) {
        Ok(()) => format!("{} {}", formula.len(), formula.var_count()),
        fault => answer(fault),
    }
}

/// The text of a fault, of a step, a proof or a formula's text.
fn said(checker: &mut Checker, line: &str) -> String {
    let (name, rest) = line.split_once(' ').unwrap_or((line, ""));
    let fault = match name {
        "add" => checker.add_clause(&lits(rest)).map_err(|fault| fault.to_string()),
        "proof" => checker.check_proof(&bytes(rest)[..]).map_err(|fault| fault.to_string()),
        "dimacs" => checker.add_dimacs_cnf(rest.replace('|', "\n").as_bytes()).map_err(|fault| fault.to_string()),
        "failing" => return said_of_failing(checker, rest),
        _ => panic!("no such call: {line}"),
    };
    fault.err().unwrap_or_else(|| "Ok".to_owned())
}

/// (a fault of a read has the text of its kind, and the end of a proof is told otherwise than by the port)
fn said_of_failing(checker: &mut Checker, line: &str) -> String {
    match fail(checker, line) {
        Made::Text(text) if text == "ProofIncomplete 2" => {
            "step 2: Error reading proof file: unexpected end of file".to_owned()
        }
        Made::Text(text) if text == "IoError 2 PermissionDenied" => {
            "step 2: Error reading proof file: permission denied".to_owned()
        }
        Made::Text(text) if text == "Read UnexpectedEof" => "error reading formula: unexpected end of file".to_owned(),
        Made::Text(text) if text == "Read PermissionDenied" => "error reading formula: permission denied".to_owned(),
        Made::Text(text) => text,
        Made::Nothing | Made::Elsewhere => "Ok".to_owned(),
    }
}

/// Checks a text, one read of which fails. Interrupted reads are retried here, and not by the port.
fn fail(checker: &mut Checker, line: &str) -> Made {
    let words: Vec<&str> = line.splitn(4, ' ').collect();
    let kind = match words[1] {
        "UnexpectedEof" => ErrorKind::UnexpectedEof,
        "PermissionDenied" => ErrorKind::PermissionDenied,
        "Other" => ErrorKind::Other,
        _ => return Made::Elsewhere,
    };
    let text = words.get(3).copied().unwrap_or("");
    let is_proof = words[2] == "proof";
    let bytes = if is_proof { bytes(text) } else { text.replace('|', "\n").into_bytes() };
    let source = Failing { bytes, at: 0, reads: 0, failing: words[0].parse().expect("a number"), kind };
    Made::Text(match is_proof {
        true => answer(checker.check_proof(source)),
        false => text_answer(checker.add_dimacs_cnf(source)),
    })
}

/// A byte for each read, of which one fails.
struct Failing {
    bytes: Vec<u8>,
    at: usize,
    reads: u32,
    failing: u32,
    kind: ErrorKind,
}

impl Read for Failing {
    fn read(&mut self, buffer: &mut [u8]) -> io::Result<usize> {
        self.reads += 1;
        if self.reads == self.failing {
            return Err(self.kind.into());
        }
        let left = &self.bytes[self.at..];
        let count = left.len().min(1);
        buffer[..count].copy_from_slice(&left[..count]);
        self.at += count;
        Ok(count)
    }
}

fn check_step(checker: &mut Checker, name: &str, rest: &str) -> String {
    let (word, more) = rest.split_once(' ').unwrap_or((rest, ""));
    let units = if name == "units" { units(rest) } else { Vec::new() };
    let step = match name {
        "end" => ProofStep::End,
        "bits" => ProofStep::ChangeHashBits { bits: word.parse().expect("a width") },
        "units" => ProofStep::UnitClauses { units: &units },
        "delvar" => ProofStep::DeleteVar { var: var(word) },
        "solver" => ProofStep::SolverVarName { global: var(word), solver: name_of(more) },
        "user" => ProofStep::UserVarName { global: var(word), user: name_of(more) },
        "mode" => ProofStep::ChangeSamplingMode { var: var(word), sample: more == "sample" },
        "at" | "del" => return check_lists(checker, (name, word), more),
        _ => return check_lists(checker, (name, ""), rest),
    };
    answer(checker.self_check_step(step))
}

/// Checks a step over literals and hashes, which a colon divides.
fn check_lists(checker: &mut Checker, kind: (&str, &str), lists: &str) -> String {
    let (clause, names) = lists.split_once(':').unwrap_or((lists, ""));
    let (clause, propagation_hashes) = (&lits(clause)[..], &names.split_whitespace().map(hash).collect::<Vec<_>>()[..]);
    answer(checker.self_check_step(match kind {
        ("at", kind) => ProofStep::AtClause { redundant: kind == "red", clause, propagation_hashes },
        ("del", "redundant") => ProofStep::DeleteClause { clause, proof: DeleteClauseProof::Redundant },
        ("del", "satisfied") => ProofStep::DeleteClause { clause, proof: DeleteClauseProof::Satisfied },
        ("del", "simplified") => ProofStep::DeleteClause { clause, proof: DeleteClauseProof::Simplified },
        ("model", _) => ProofStep::Model { assignment: clause },
        ("assume", _) => ProofStep::Assumptions { assumptions: clause },
        ("core", _) => ProofStep::FailedAssumptions { failed_core: clause, propagation_hashes },
        _ => panic!("no such call: {kind:?} {lists}"),
    }))
}

fn lits(text: &str) -> Vec<Lit> {
    text.split_whitespace().map(|word| Lit::from_dimacs(word.parse().expect("a literal"))).collect()
}

fn units(text: &str) -> Vec<(Lit, ClauseHash)> {
    let unit = |(lit, name): (&str, &str)| (Lit::from_dimacs(lit.parse().expect("a literal")), hash(name));
    text.split_whitespace().map(|pair| unit(pair.split_once(':').expect("a pair"))).collect()
}

fn var(word: &str) -> Var {
    Var::from_dimacs(word.parse().expect("a variable"))
}

fn name_of(word: &str) -> Option<Var> {
    (word != "-").then(|| var(word))
}

/// Letters are hashes of [1 2], [1 -2], [-1 2], [-1 -2], [-2 3] and [-3 4].
fn hash(name: &str) -> ClauseHash {
    match name {
        "A" => 0xC4AF_7593_0295_082A,
        "B" => 0x66E7_FF54_8263_8C41,
        "C" => 0x66D7_FE5A_834B_8C15,
        "D" => 0xC49F_749D_03BD_087E,
        "Y" => 0xEE39_864A_815D_9C3D,
        "Z" => 0x665B_8A4E_80B7_8CED,
        _ => u64::from_str_radix(name, 16).expect("a hash"),
    }
}

fn bytes(text: &str) -> Vec<u8> {
    text.split_whitespace().map(|byte| u8::from_str_radix(byte, 16).expect("a byte")).collect()
}

/// A proof that adds the empty clause so many times, and goes on by these bytes.
fn long(line: &str) -> Vec<u8> {
    let (count, last) = line.split_once(' ').unwrap_or((line, ""));
    let mut proof = [5, 0].repeat(count.parse().expect("a number"));
    proof.extend(bytes(last));
    proof
}
