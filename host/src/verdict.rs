//! Everything that a call gives back for a case: numbers and every byte of the buffers it writes.

use crate::cases::{Call, Case};
use crate::outcome::{BoundWords, Outcome, Weighing, Written, BOUND_WORDS};
use crate::reference;

/// What an answer buffer holds before a call.
pub const FILL: u8 = 0xA5;

/// What a call gives back.
#[derive(Clone, Debug, PartialEq, Eq)]
pub struct Verdict {
    pub outcome: Outcome,
    /// W and the step bound; 0 for calls that do not weigh.
    pub bound: BoundWords,
    /// How many bytes of a table or a text were written; 0 for calls that write neither.
    pub length: u32,
    /// The whole buffer for an answer, a table or a text after the call; empty for calls that have
    /// none.
    pub answer: Vec<u8>,
    /// The whole buffer of weights after a call that looks for them; empty for other calls.
    pub weights: Vec<u8>,
}

impl Verdict {
    /// The verdict of a call that lends no answer buffer and does not weigh.
    pub fn of_check(outcome: Outcome) -> Verdict {
        Verdict {
            outcome,
            bound: [0; BOUND_WORDS],
            length: 0,
            answer: Vec::new(),
            weights: Vec::new(),
        }
    }

    /// The verdict of a weighing.
    pub fn of_weighing(weighing: Weighing) -> Verdict {
        Verdict {
            bound: [weighing.weight, weighing.bound],
            ..Verdict::of_check(weighing.outcome)
        }
    }

    /// The verdict of a run by some engine, on an answer buffer full of [`FILL`].
    pub fn of_run(case: &Case, run: impl Fn(&[u8], &[u8], u32, &mut [u8]) -> Outcome) -> Verdict {
        let mut answer = vec![FILL; case.answer_len];
        let outcome = run(&case.table, &case.goal, case.limit, &mut answer);
        Verdict {
            answer,
            ..Verdict::of_check(outcome)
        }
    }

    /// The verdict of reading or printing by some engine, to a buffer full of [`FILL`].
    pub fn of_text(case: &Case, call: impl FnOnce(&[u8], &mut [u8]) -> Written) -> Verdict {
        let mut answer = vec![FILL; case.answer_len];
        let written = call(&case.table, &mut answer);
        Verdict {
            length: written.length,
            answer,
            ..Verdict::of_check(written.outcome)
        }
    }

    /// The verdict of a search for weights by some engine, in the buffer that the case lends.
    pub fn of_find(case: &Case, find: impl Fn(&[u8], &mut [u8]) -> Outcome) -> Verdict {
        let mut weights = case.weights.clone();
        let outcome = find(&case.table, &mut weights);
        Verdict {
            weights,
            ..Verdict::of_check(outcome)
        }
    }
}

/// The reference's verdict on a case.
pub fn reference(case: &Case) -> Verdict {
    match case.call {
        Call::Check => Verdict::of_check(reference::check(&case.table)),
        Call::Run => Verdict::of_run(case, reference::run),
        Call::Weigh => {
            Verdict::of_weighing(reference::weigh(&case.table, &case.weights, &case.goal))
        }
        Call::FindWeights => Verdict::of_find(case, reference::find_weights),
        Call::ReadText => Verdict::of_text(case, reference::read_text),
        Call::PrintText => Verdict::of_text(case, reference::print_text),
    }
}
