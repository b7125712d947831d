//! The ported checker: accepted and rejected calls, faults, and several checkers, also in threads.
use cefindrato::checker::{clause_hash, CheckCause, Checker, CheckerError, DeleteClauseProof, Lit, ProofStep};
use cefindrato::lit;

fn lits(numbers: &[isize]) -> Vec<Lit> {
    numbers.iter().map(|number| lit!(*number)).collect()
}

/// Why a call is rejected, and at which step.
fn refused(outcome: Result<(), CheckerError>) -> (u64, CheckCause) {
    match outcome {
        Err(CheckerError::CheckFailed { step, msg }) => (step, msg),
        other => panic!("{other:?}"),
    }
}

/// A checker of `1 2` and `1 -2 3`, with the lemma `1 3` in place of the second clause.
fn begun() -> Checker {
    let (first, second, lemma) = (lits(&[1, 2]), lits(&[1, -2, 3]), lits(&[1, 3]));
    let mut checker = Checker::new();
    checker.add_clause(&first).unwrap();
    checker.self_check_step(ProofStep::AddClause { clause: &second }).unwrap();
    let hashes = [clause_hash(&first), clause_hash(&second)];
    let derived = ProofStep::AtClause { redundant: false, clause: &lemma, propagation_hashes: &hashes };
    checker.self_check_step(derived).unwrap();
    let deleted = ProofStep::DeleteClause { clause: &second, proof: DeleteClauseProof::Simplified };
    checker.self_check_step(deleted).unwrap();
    checker
}

#[test]
fn queries() {
    let mut checker = begun();
    let (assumed, core, model) = (lits(&[-1, 4, -3]), lits(&[-3, -1]), lits(&[2, 3]));
    let hashes = [clause_hash(&lits(&[1, 3]))];
    checker.self_check_step(ProofStep::Assumptions { assumptions: &assumed }).unwrap();
    let fails = ProofStep::FailedAssumptions { failed_core: &core, propagation_hashes: &hashes };
    checker.self_check_step(fails).unwrap();
    let missed = checker.self_check_step(ProofStep::Model { assignment: &model });
    assert_eq!(missed.as_ref().unwrap_err().to_string(), "step 6: Checking proof failed: model does not contain assumption");
    assert_eq!(refused(missed), (6, CheckCause::ModelMissesAssumption));
    checker.self_check_step(ProofStep::Assumptions { assumptions: &[] }).unwrap();
    checker.self_check_step(ProofStep::Model { assignment: &model }).unwrap();
    let none = checker.self_check_step(fails);
    assert_eq!(refused(none), (9, CheckCause::NotAssumed));
    checker.self_check_step(ProofStep::End).unwrap();
    assert!(!checker.unsat());
    checker.add_clause(&[]).unwrap();
    assert!(checker.unsat());
    let after = checker.self_check_step(ProofStep::Model { assignment: &model });
    assert_eq!(refused(after), (11, CheckCause::ModelAfterUnsat));
}

#[test]
fn deletions() {
    let mut checker = begun();
    let (first, unit) = (lits(&[1, 2]), lits(&[2]));
    let of = |clause, proof| ProofStep::DeleteClause { clause, proof };
    let redundant = checker.self_check_step(of(&first, DeleteClauseProof::Redundant));
    assert_eq!(refused(redundant), (4, CheckCause::DeleteRedundantIsIrredundant));
    let satisfied = of(&first, DeleteClauseProof::Satisfied);
    assert_eq!(refused(checker.self_check_step(satisfied)), (5, CheckCause::NotSatisfied));
    checker.add_clause(&unit).unwrap();
    checker.self_check_step(satisfied).unwrap();
    let short = checker.self_check_step(of(&unit, DeleteClauseProof::Satisfied));
    assert_eq!(refused(short), (7, CheckCause::DeleteUnitOrEmpty));
    let copy = ProofStep::AtClause { redundant: true, clause: &first, propagation_hashes: &[] };
    checker.self_check_step(copy).unwrap();
    checker.self_check_step(of(&first, DeleteClauseProof::Redundant)).unwrap();
}

#[test]
fn literals() {
    let largest = lit!(-(1 << 28));
    assert_eq!((largest.to_dimacs(), (!largest).code(), largest.code()), (-(1 << 28), (1 << 29) - 2, (1 << 29) - 1));
    assert_eq!((lit!(1).code(), lit!(-1).code(), lit!(-1).is_negative(), lit!(-1).is_positive()), (0, 1, true, false));
    assert_eq!(format!("{:?} {}", lit!(-3), !lit!(-3)), "-3 3");
    for number in [0, (1 << 28) + 1, -(1 << 28) - 1, isize::MIN] {
        assert!(std::panic::catch_unwind(|| lit!(number)).is_err());
    }
    // (of the codes 0, 3 and 4, by another form of the same product)
    let of = |code: u64| (code + (1 << 29) + 1).wrapping_mul(0x9e37_79b9_7f4a_7c15);
    assert_eq!(clause_hash(&lits(&[1, -2, 3])), of(0) ^ of(3) ^ of(4));
}

/// Nothing was begun: there is nothing to be freed, and nothing is recorded.
#[test]
fn no_call() {
    assert!(!Checker::new().unsat());
}

#[test]
fn threads() {
    let all: Vec<_> = (0..8).map(|_| (begun(), lits(&[]))).collect();
    let ended: Vec<_> = all
        .into_iter()
        .map(|(mut checker, none)| std::thread::spawn(move || checker.add_clause(&none).map(|()| checker.unsat())))
        .collect();
    for one in ended {
        assert_eq!(one.join().unwrap(), Ok(true));
    }
}
