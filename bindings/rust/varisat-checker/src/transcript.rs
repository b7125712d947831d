//! Proof transcripts.
use crate::processing::{CheckedProofStep, CheckedSamplingMode, CheckedUserVar, CheckerData};
use anyhow::Error;
use varisat_formula::{Lit, Var};

/// What a solver was asked and answered, by an accepted proof, over user variables.
#[derive(Debug)]
pub enum ProofTranscriptStep<'a> {
    /// A variable is determined by others from here on.
    WitnessVar {
        /// The variable.
        var: Var,
    },
    /// Models are sampled over a variable from here on.
    SampleVar {
        /// The variable.
        var: Var,
    },
    /// A variable is hidden.
    HideVar {
        /// The variable.
        var: Var,
    },
    /// A variable of the solver becomes visible.
    ObserveInternalVar {
        /// The variable.
        var: Var,
    },
    /// A clause is added to the formula.
    AddClause {
        /// Its literals.
        clause: &'a [Lit],
    },
    /// No assignment satisfies the formula.
    Unsat,
    /// Some assignment satisfies the formula and the assumptions, and makes these literals true.
    Model {
        /// The literals.
        assignment: &'a [Lit],
    },
    /// Literals are assumed, in place of earlier ones.
    Assume {
        /// The literals.
        assumptions: &'a [Lit],
    },
    /// No assignment satisfies the formula and makes these assumptions true.
    FailedAssumptions {
        /// The literals.
        failed_core: &'a [Lit],
    },
}

/// Takes the steps of a transcript.
pub trait ProofTranscriptProcessor {
    /// Takes a step.
    ///
    /// # Errors
    ///
    /// As [`ProofProcessor::process_step`](crate::ProofProcessor::process_step).
    fn process_step(&mut self, step: &ProofTranscriptStep) -> Result<(), Error>;
}

/// The step of the transcript, if a checked step has one; `lits` gets its literals.
pub(crate) fn transcript_step<'l>(
    step: &CheckedProofStep,
    data: CheckerData,
    lits: &'l mut Vec<Lit>,
) -> Option<ProofTranscriptStep<'l>> {
    match step {
        CheckedProofStep::UserVar { var, user_var: None } => {
            data.user_from_proof_var(*var).map(|var| ProofTranscriptStep::HideVar { var })
        }
        CheckedProofStep::UserVar { user_var: Some(named), .. } => step_of_name(named),
        CheckedProofStep::AddClause { clause, .. }
        | CheckedProofStep::DuplicatedClause { clause, .. }
        | CheckedProofStep::TautologicalClause { clause, .. } => {
            Some(ProofTranscriptStep::AddClause { clause: named(clause, data, lits) })
        }
        CheckedProofStep::AtClause { clause, .. } => clause.is_empty().then_some(ProofTranscriptStep::Unsat),
        CheckedProofStep::Model { assignment } => {
            Some(ProofTranscriptStep::Model { assignment: named(assignment, data, lits) })
        }
        CheckedProofStep::Assumptions { assumptions } => {
            Some(ProofTranscriptStep::Assume { assumptions: named(assumptions, data, lits) })
        }
        CheckedProofStep::FailedAssumptions { failed_core, .. } => {
            Some(ProofTranscriptStep::FailedAssumptions { failed_core: named(failed_core, data, lits) })
        }
        _ => None,
    }
}

fn step_of_name<'l>(named: &CheckedUserVar) -> Option<ProofTranscriptStep<'l>> {
    let var = named.user_var;
    match (&named.sampling_mode, named.new_var) {
        (CheckedSamplingMode::Sample, true) => None,
        (CheckedSamplingMode::Witness, true) => Some(ProofTranscriptStep::ObserveInternalVar { var }),
        (CheckedSamplingMode::Witness, false) => Some(ProofTranscriptStep::WitnessVar { var }),
        (CheckedSamplingMode::Sample, false) => Some(ProofTranscriptStep::SampleVar { var }),
    }
}

/// Literals of user variables; `named` gets them. Only a model has literals without a user variable, which are left out.
fn named<'l>(lits: &[Lit], data: CheckerData, named: &'l mut Vec<Lit>) -> &'l [Lit] {
    named.extend(lits.iter().filter_map(|lit| Some(data.user_from_proof_var(lit.var())?.lit(lit.is_positive()))));
    named
}
