//! Which outcome each call has had: a run that leaves out a reachable one has shown too little.

use crate::refusal::Refusal;
use crate::trace::{Answer, Call, FINISHED, MISFIT};
use std::collections::BTreeMap;
use std::fmt;

/// The refusals that a trace can bring about. A sender's SPENT is not among them: it takes more
/// packets than anyone sends.
pub fn reachable_refusals(call: Call) -> Vec<Refusal> {
    use Refusal::*;
    match call {
        Call::SetUpSender | Call::SetUpReceiver => vec![Setup],
        Call::SendMedia => vec![Setup, Long, Shape, Stream, Room, Order],
        Call::SendControl => vec![Setup, Long, Shape, Stream, Room],
        Call::ReceiveMedia => {
            vec![Setup, Long, Shape, Stream, Room, Key, Spent, Old, Repeat, Forged]
        }
        Call::ReceiveControl => vec![Setup, Long, Shape, Stream, Room, Key, Old, Repeat, Forged],
    }
}

/// Every outcome number that a trace can bring about.
fn reachable_outcomes(call: Call) -> Vec<u8> {
    let refusals = reachable_refusals(call).into_iter().map(Refusal::number);
    [FINISHED, MISFIT].into_iter().chain(refusals).collect()
}

/// Counts of answers by call and outcome number.
#[derive(Clone, Debug, Default, PartialEq, Eq)]
pub struct Coverage {
    cells: BTreeMap<(Call, u8), u64>,
    unknown_ops: u64,
    calls: u64,
}

impl Coverage {
    /// Counts an answer.
    pub fn count(&mut self, answer: &Answer) {
        self.calls += u64::from(answer.is_to_a_call());
        match Call::from_op(answer.op) {
            Some(call) => *self.cells.entry((call, answer.outcome)).or_default() += 1,
            None => self.unknown_ops += 1,
        }
    }

    /// How many answers were to calls. Those to records that don't fit are not among them.
    pub fn calls(&self) -> u64 {
        self.calls
    }

    /// How often the call had the outcome.
    pub fn cell(&self, call: Call, outcome: u8) -> u64 {
        self.cells.get(&(call, outcome)).copied().unwrap_or(0)
    }

    /// The reachable cells that are empty, in words.
    pub fn gaps(&self) -> Vec<String> {
        let mut gaps = Vec::new();
        for call in Call::ALL {
            for outcome in reachable_outcomes(call) {
                if self.cell(call, outcome) == 0 {
                    gaps.push(format!("{call}: {}", outcome_name(outcome)));
                }
            }
        }
        if self.unknown_ops == 0 {
            gaps.push("unknown op".to_string());
        }
        gaps
    }
}

/// An outcome number in words.
pub fn outcome_name(outcome: u8) -> String {
    match (outcome, Refusal::from_number(outcome)) {
        (FINISHED, _) => "done".to_string(),
        (MISFIT, _) => "misfit".to_string(),
        (_, Some(refusal)) => refusal.to_string(),
        (_, None) => format!("outcome {outcome}"),
    }
}

/// One row an outcome, one column a call; a dot stands where no trace can lead. Then the sums.
impl fmt::Display for Coverage {
    fn fmt(&self, f: &mut fmt::Formatter<'_>) -> fmt::Result {
        write!(f, "{:9}", "")?;
        for call in Call::ALL {
            write!(f, "{call:>17}")?;
        }
        let refusals = Refusal::ALL.into_iter().map(Refusal::number);
        for outcome in [FINISHED].into_iter().chain(refusals).chain([MISFIT]) {
            write!(f, "\n{:9}", outcome_name(outcome))?;
            for call in Call::ALL {
                match self.cell(call, outcome) {
                    0 if !reachable_outcomes(call).contains(&outcome) => write!(f, "{:>17}", ".")?,
                    count => write!(f, "{count:>17}")?,
                }
            }
        }
        write!(f, "\nunknown op: {}\ncalls: {}", self.unknown_ops, self.calls)
    }
}
