//! Each public item of `varisat-checker` 0.2.2 once, as programs that are written for it use them.
use anyhow::{bail, Error};
use std::error::Error as _;
use std::io::{self, Read};
use varisat_checker::internal::SelfChecker;
use varisat_checker::{
    CheckedProofStep, CheckedSamplingMode, CheckedUserVar, Checker, CheckerData, CheckerError, ProofProcessor,
    ProofTranscriptProcessor, ProofTranscriptStep, ResolutionPropagations,
};
use varisat_formula::{cnf_formula, lit, lits, CnfFormula, ExtendFormula, Lit, Var};
use varisat_internal_proof::{clause_hash, lit_code_hash, lit_hash, ClauseHash, DeleteClauseProof, ProofStep};

/// Lines of steps, and how many it takes before it fails.
#[derive(Default)]
struct Seen {
    lines: Vec<String>,
    fails_after: Option<usize>,
}

impl Seen {
    fn take(&mut self, line: String) -> Result<(), Error> {
        if self.fails_after == Some(self.lines.len()) {
            bail!("no room for {line}");
        }
        self.lines.push(line);
        Ok(())
    }
}

impl ProofProcessor for Seen {
    fn process_step(&mut self, step: &CheckedProofStep<'_>, data: CheckerData<'_, '_>) -> Result<(), Error> {
        let copy = data;
        let named = |var| copy.user_from_proof_var(var).map_or(0, Var::to_dimacs);
        self.take(match step {
            CheckedProofStep::UserVar { var, user_var } => match user_var {
                Some(CheckedUserVar { user_var, sampling_mode: CheckedSamplingMode::Sample, new_var }) => {
                    format!("name {var} {user_var} sample {new_var}")
                }
                Some(CheckedUserVar { user_var, sampling_mode: CheckedSamplingMode::Witness, new_var }) => {
                    format!("name {var} {user_var} witness {new_var}")
                }
                None => format!("hide {var} {}", named(*var)),
            },
            CheckedProofStep::AddClause { id, clause } => format!("add {id} {clause:?}"),
            CheckedProofStep::DuplicatedClause { id, same_as_id, clause } => {
                format!("again {id} {same_as_id} {clause:?}")
            }
            CheckedProofStep::TautologicalClause { id, clause } => format!("tautology {id} {clause:?}"),
            CheckedProofStep::AtClause { id, redundant, clause, propagations } => {
                format!("at {id} {redundant} {clause:?} {propagations:?}")
            }
            CheckedProofStep::DeleteClause { id, clause } => format!("delete {id} {clause:?}"),
            CheckedProofStep::DeleteAtClause { id, keep_as_redundant, clause, propagations } => {
                format!("delete at {id} {keep_as_redundant} {clause:?} {propagations:?}")
            }
            CheckedProofStep::DeleteRatClause { id, keep_as_redundant, clause, pivot, propagations } => {
                let ResolutionPropagations {} = propagations;
                format!("delete rat {id} {keep_as_redundant} {clause:?} {pivot}")
            }
            CheckedProofStep::MakeIrredundant { id, clause } => format!("irredundant {id} {clause:?}"),
            CheckedProofStep::Model { assignment } => format!("model {assignment:?}"),
            CheckedProofStep::Assumptions { assumptions } => format!("assume {assumptions:?}"),
            CheckedProofStep::FailedAssumptions { failed_core, propagations } => {
                format!("core {failed_core:?} {propagations:?}")
            }
        })
    }
}

impl ProofTranscriptProcessor for Seen {
    fn process_step(&mut self, step: &ProofTranscriptStep) -> Result<(), Error> {
        self.take(match step {
            ProofTranscriptStep::WitnessVar { var } => format!("witness {var}"),
            ProofTranscriptStep::SampleVar { var } => format!("sample {var}"),
            ProofTranscriptStep::HideVar { var } => format!("hide {var}"),
            ProofTranscriptStep::ObserveInternalVar { var } => format!("observe {var}"),
            ProofTranscriptStep::AddClause { clause } => format!("add {clause:?}"),
            ProofTranscriptStep::Unsat => "unsat".to_owned(),
            ProofTranscriptStep::Model { assignment } => format!("model {assignment:?}"),
            ProofTranscriptStep::Assume { assumptions } => format!("assume {assumptions:?}"),
            ProofTranscriptStep::FailedAssumptions { failed_core } => format!("core {failed_core:?}"),
        })
    }
}

/// The signatures of upstream.
fn signatures() {
    type Checked = Result<(), CheckerError>;
    fn is_error<E: std::error::Error + Send + Sync + 'static>() {}
    let _: fn() -> Checker<'static> = Checker::new;
    let _: fn() -> Checker<'static> = Checker::default;
    let _: fn(&mut Checker<'static>, &[Lit]) -> Checked = Checker::add_clause;
    let _: fn(&mut Checker<'static>, &CnfFormula) -> Checked = Checker::add_formula;
    let _: fn(&mut Checker<'static>, io::Empty) -> Result<(), Error> = Checker::add_dimacs_cnf;
    let _: fn(&mut Checker<'static>, &'static mut dyn ProofProcessor) = Checker::add_processor;
    let _: fn(&mut Checker<'static>, &'static mut dyn ProofTranscriptProcessor) = Checker::add_transcript;
    let _: fn(&mut Checker<'static>, &'static [u8]) -> Checked = Checker::check_proof;
    let _: fn(CheckerData<'static, 'static>, Var) -> Option<Var> = CheckerData::user_from_proof_var;
    is_error::<CheckerError>();
}

/// The hash of a clause whose variables have no solver names.
fn hash(clause: &[Lit]) -> ClauseHash {
    let of_lit = |lit: &Lit| lit_code_hash(lit.code() + 2 * Var::max_count());
    clause.iter().fold(0, |hash, lit| hash ^ of_lit(lit))
}

/// All kinds of step, with what is seen of them.
fn steps() -> Result<(), Error> {
    let (mut seen, mut transcript) = (Seen::default(), Seen::default());
    let mut checker = Checker::new();
    checker.add_processor(&mut seen);
    checker.add_transcript(&mut transcript);
    let mut formula: CnfFormula = cnf_formula![1, 2; 1, -2; 2, 1; 3, -3];
    formula.add_clause(&lits![4, 5]);
    checker.add_formula(&formula)?;
    let hashes = [hash(&lits![1, 2]), hash(&lits![1, -2])];
    assert_eq!(clause_hash(&lits![1, 2]), lit_hash(lit!(1)) ^ lit_hash(lit!(2)));
    let (name, var) = (Some(Var::from_dimacs(7)), Var::from_dimacs(6));
    let two = lits![4, 5];
    for step in [
        ProofStep::AtClause { redundant: true, clause: &lits![1, 6], propagation_hashes: &hashes },
        ProofStep::AddClause { clause: &lits![6, 1] },
        ProofStep::DeleteClause { clause: &lits![1, 6], proof: DeleteClauseProof::Redundant },
        ProofStep::UnitClauses { units: &[] },
        ProofStep::AddClause { clause: &lits![4] },
        ProofStep::AtClause { redundant: true, clause: &two, propagation_hashes: &[] },
        ProofStep::DeleteClause { clause: &two, proof: DeleteClauseProof::Satisfied },
        ProofStep::DeleteClause { clause: &two, proof: DeleteClauseProof::Redundant },
        ProofStep::DeleteVar { var: Var::from_dimacs(4) },
        ProofStep::AddClause { clause: &lits![7] },
        ProofStep::UserVarName { global: var, user: name },
        ProofStep::ChangeSamplingMode { var, sample: false },
        ProofStep::ChangeSamplingMode { var, sample: true },
        ProofStep::UserVarName { global: var, user: None },
        ProofStep::ChangeSamplingMode { var, sample: false },
        ProofStep::UserVarName { global: var, user: name },
        ProofStep::SolverVarName { global: var, solver: Some(var) },
        ProofStep::ChangeHashBits { bits: 60 },
        ProofStep::Assumptions { assumptions: &lits![-2, -1] },
        ProofStep::FailedAssumptions { failed_core: &lits![-1, -2], propagation_hashes: &[hashes[0] >> 4] },
        ProofStep::Assumptions { assumptions: &[] },
        ProofStep::Model { assignment: &lits![2, 1, 6] },
        ProofStep::End,
    ] {
        checker.self_check_step(step)?;
    }
    checker.self_check_delayed_steps()?;
    assert!(!checker.unsat());
    drop(checker);
    assert_eq!(
        seen.lines,
        [
            "add 0 [1, 2]",
            "add 1 [1, -2]",
            "again 2 0 [1, 2]",
            "tautology 3 [3, -3]",
            "add 4 [4, 5]",
            "at 5 true [1, 6] [0, 1]",
            "irredundant 5 [1, 6]",
            "again 6 5 [1, 6]",
            "add 7 [4]",
            "delete at 4 true [4, 5] [7]",
            "delete 4 [4, 5]",
            "delete rat 7 false [4] 4",
            "add 8 [7]",
            "name 6 7 sample true",
            "name 6 7 witness false",
            "name 6 7 sample false",
            "hide 6 7",
            "name 6 7 witness true",
            "assume [-1, -2]",
            "core [-1, -2] [0]",
            "assume []",
            "model [2, 1, 6]",
        ]
    );
    assert_eq!(
        transcript.lines,
        [
            "add [1, 2]",
            "add [1, -2]",
            "add [1, 2]",
            "add [3, -3]",
            "add [4, 5]",
            "add [1, 6]",
            "add [4]",
            "add [7]",
            "witness 7",
            "sample 7",
            "hide 7",
            "observe 7",
            "assume [-1, -2]",
            "core [-1, -2]",
            "assume []",
            "model [2, 1, 7]",
        ]
    );
    Ok(())
}

/// Derived units do not stand between a lemma and a deletion, and a step that names a variable makes it known to models.
fn steps_without_calls() -> Result<(), Error> {
    let mut seen = Seen::default();
    let mut checker = Checker::new();
    checker.add_processor(&mut seen);
    checker.add_formula(&cnf_formula![1, 2, 3; 1, 2; 5; -5, 6])?;
    let (clause, hashes) = (&lits![1, 2], &[hash(&lits![1, 2])]);
    checker.self_check_step(ProofStep::AtClause { redundant: false, clause, propagation_hashes: hashes })?;
    checker.self_check_step(ProofStep::UnitClauses { units: &[(lit!(6), hash(&lits![-5, 6]))] })?;
    let deleted = &lits![1, 2, 3];
    checker.self_check_step(ProofStep::DeleteClause { clause: deleted, proof: DeleteClauseProof::Simplified })?;
    assert!(checker.self_check_step(ProofStep::Model { assignment: &lits![1, 6, 9] }).is_err());
    checker.self_check_step(ProofStep::ChangeSamplingMode { var: Var::from_dimacs(9), sample: true })?;
    checker.self_check_step(ProofStep::Model { assignment: &lits![1, 6, 9] })?;
    drop(checker);
    let after = ["at 4 false [6] [2, 3]", "delete at 0 false [1, 2, 3] [1]", "model [1, 6, 9]"];
    assert_eq!(seen.lines[4..], after);
    Ok(())
}

/// A reader that has no permission.
struct Shut;

impl Read for Shut {
    fn read(&mut self, _: &mut [u8]) -> io::Result<usize> {
        Err(io::ErrorKind::PermissionDenied.into())
    }
}

/// Each kind of fault, with its fields and texts.
fn faults() {
    let mut checker = Checker::new();
    assert!(matches!(checker.check_proof(io::empty()), Err(CheckerError::ProofIncomplete { step: 1 })));
    let shut = checker.check_proof(Shut).unwrap_err();
    assert!(
        matches!(&shut, CheckerError::IoError { step: 2, cause } if cause.kind() == io::ErrorKind::PermissionDenied)
    );
    assert!(shut.source().is_some());
    let malformed = checker.check_proof(&b"\x0E"[..]).unwrap_err();
    assert_eq!(malformed.to_string(), "step 3: Could not parse proof step: unknown step tag");
    assert_eq!(malformed.source().unwrap().to_string(), "unknown step tag");
    assert!(
        matches!(malformed, CheckerError::ParseError { step: 3, cause } if cause.to_string() == "unknown step tag")
    );
    let clause = &lits![1, -2];
    match checker.self_check_step(ProofStep::AtClause { redundant: false, clause, propagation_hashes: &[] }) {
        Err(CheckerError::CheckFailed { step, msg, debug_step }) => {
            let shown = "AtClause { redundant: false, clause: [1, -2], propagation_hashes: [] }";
            assert_eq!((step, &*msg, &*debug_step), (4, "AT check failed for [1, -2]", shown));
        }
        other => panic!("{other:?}"),
    }
    let mut seen = Seen { fails_after: Some(0), ..Seen::default() };
    checker.add_processor(&mut seen);
    let full = checker.add_dimacs_cnf(&b"p cnf 1 1\n1 0\n"[..]).unwrap_err();
    assert_eq!(full.to_string(), "Error in proof processor: no room for add 0 [1]");
    match full.downcast_ref::<CheckerError>() {
        Some(CheckerError::ProofProcessorError { cause }) => assert_eq!(cause.to_string(), "no room for add 0 [1]"),
        other => panic!("{other:?}"),
    }
    let text = Checker::new().add_dimacs_cnf(&b"p cnf 2 1\n1 x 0\n"[..]).unwrap_err();
    assert_eq!(text.to_string(), "line 2: bad number");
}

/// Literals, variables and formulas.
fn literals() {
    let var = Var::from_index(2);
    assert_eq!((var.to_dimacs(), var.positive().code(), var.negative().code(), Var::max_count()), (3, 4, 5, 1 << 28));
    assert_eq!(
        (Lit::from_code(5), Lit::from_var(var, false), !lit!(3), lit!(3) ^ true),
        (lit!(-3), lit!(-3), lit!(-3), lit!(-3))
    );
    assert_eq!((lit!(-3).map_var(|_| Var::from_dimacs(9)), lit!(-3).var(), lit!(-3).index()), (lit!(-9), var, 2));
    let mut sorted = lits![2, -1, 1, -2];
    sorted.sort();
    assert_eq!(sorted, lits![1, -1, 2, -2]);
    let mut formula = CnfFormula::from(vec![vec![lit!(1)], vec![]]);
    assert_eq!((formula.len(), formula.var_count(), formula.new_var()), (2, 1, Var::from_dimacs(2)));
    formula.set_var_count(1);
    assert_eq!((formula.var_count(), format!("{formula:?}")), (2, "[[1], []]".to_owned()));
}

fn main() -> Result<(), Error> {
    signatures();
    literals();
    steps()?;
    steps_without_calls()?;
    faults();
    Ok(())
}
