//! The proved library through its C interface, wrapped in safe functions. Every buffer is lent
//! between guard bytes, and all lent memory is compared afterwards.

use crate::cases::{Call, Case};
use crate::outcome::{BoundWords, Outcome, ResultWords, BOUND_WORDS, RESULT_WORDS};
use crate::verdict::{Verdict, FILL};

// Elsewhere a program would not link, and the linker says it at length.
#[cfg(not(target_arch = "x86_64"))]
compile_error!(
    "the proved library links into programs for x86-64 alone; host/tests/library.sh and host/tests/compare.sh try it on this machine"
);

/// Bytes before and after each buffer that no call may touch.
const GUARD: usize = 64;
/// What the words of a result hold before a call; every call writes all of them.
pub(crate) const STALE: u32 = 0x5A5A_5A5A;

extern "C" {
    pub(crate) fn nadhirukh_check(table: *const u8, table_len: usize, result: *mut u32) -> u32;
    pub(crate) fn nadhirukh_run(
        table: *const u8,
        table_len: usize,
        goal: *const u8,
        goal_len: usize,
        limit: u32,
        answer: *mut u8,
        answer_len: usize,
        result: *mut u32,
    ) -> u32;
    fn nadhirukh_weigh(
        table: *const u8,
        table_len: usize,
        weights: *const u8,
        weights_len: usize,
        goal: *const u8,
        goal_len: usize,
        result: *mut u32,
        bound: *mut u32,
    ) -> u32;
    fn nadhirukh_find_weights(
        table: *const u8,
        table_len: usize,
        weights: *mut u8,
        weights_len: usize,
        result: *mut u32,
    ) -> u32;
    fn nadhirukh_read_text(
        text: *const u8,
        text_len: usize,
        table: *mut u8,
        table_len: usize,
        result: *mut u32,
        length: *mut u32,
    ) -> u32;
    fn nadhirukh_print_text(
        table: *const u8,
        table_len: usize,
        text: *mut u8,
        text_len: usize,
        result: *mut u32,
        length: *mut u32,
    ) -> u32;
}

/// Checks a table: the number returned, and the result.
pub fn check(table: &[u8], result: &mut ResultWords) -> u32 {
    // SAFETY: slices and arrays are valid for their lengths and do not overlap.
    unsafe { nadhirukh_check(table.as_ptr(), table.len(), result.as_mut_ptr()) }
}

/// Runs a goal: the number returned, and the result.
pub fn run(
    table: &[u8],
    goal: &[u8],
    limit: u32,
    answer: &mut [u8],
    result: &mut ResultWords,
) -> u32 {
    // SAFETY: slices and arrays are valid for their lengths and do not overlap.
    unsafe {
        nadhirukh_run(
            table.as_ptr(),
            table.len(),
            goal.as_ptr(),
            goal.len(),
            limit,
            answer.as_mut_ptr(),
            answer.len(),
            result.as_mut_ptr(),
        )
    }
}

/// Weighs a table: the number returned, the result, and W with the step bound.
pub fn weigh(
    table: &[u8],
    weights: &[u8],
    goal: &[u8],
    result: &mut ResultWords,
    bound: &mut BoundWords,
) -> u32 {
    // SAFETY: slices and arrays are valid for their lengths and do not overlap.
    unsafe {
        nadhirukh_weigh(
            table.as_ptr(),
            table.len(),
            weights.as_ptr(),
            weights.len(),
            goal.as_ptr(),
            goal.len(),
            result.as_mut_ptr(),
            bound.as_mut_ptr(),
        )
    }
}

/// Looks for weights: the number returned, and the result.
pub fn find_weights(table: &[u8], weights: &mut [u8], result: &mut ResultWords) -> u32 {
    // SAFETY: slices and arrays are valid for their lengths and do not overlap.
    unsafe {
        nadhirukh_find_weights(
            table.as_ptr(),
            table.len(),
            weights.as_mut_ptr(),
            weights.len(),
            result.as_mut_ptr(),
        )
    }
}

/// Reads a text to a table: the number returned, the result, and how many bytes were written.
pub fn read_text(text: &[u8], table: &mut [u8], result: &mut ResultWords, length: &mut u32) -> u32 {
    // SAFETY: slices and arrays are valid for their lengths and do not overlap.
    unsafe {
        nadhirukh_read_text(
            text.as_ptr(),
            text.len(),
            table.as_mut_ptr(),
            table.len(),
            result.as_mut_ptr(),
            length,
        )
    }
}

/// Prints a table as text: the number returned, the result, and how many bytes were written.
pub fn print_text(
    table: &[u8],
    text: &mut [u8],
    result: &mut ResultWords,
    length: &mut u32,
) -> u32 {
    // SAFETY: slices and arrays are valid for their lengths and do not overlap.
    unsafe {
        nadhirukh_print_text(
            table.as_ptr(),
            table.len(),
            text.as_mut_ptr(),
            text.len(),
            result.as_mut_ptr(),
            length,
        )
    }
}

/// A buffer between guard bytes.
struct Guarded {
    bytes: Vec<u8>,
    len: usize,
}

impl Guarded {
    fn new(content: &[u8]) -> Guarded {
        let mut bytes = vec![!FILL; GUARD];
        bytes.extend(content);
        bytes.extend([!FILL; GUARD]);
        Guarded {
            bytes,
            len: content.len(),
        }
    }

    fn lent(&self) -> &[u8] {
        &self.bytes[GUARD..GUARD + self.len]
    }

    fn lent_mut(&mut self) -> &mut [u8] {
        &mut self.bytes[GUARD..GUARD + self.len]
    }

    /// Whether the buffer holds this content, and the guard bytes are untouched.
    fn holds(&self, content: &[u8]) -> bool {
        self.bytes == Guarded::new(content).bytes
    }
}

/// What a case lends to a call: buffers between guard bytes. The words around the result, the bound
/// and the length are guards too.
struct Lent {
    table: Guarded,
    goal: Guarded,
    weights: Guarded,
    answer: Guarded,
    result: [ResultWords; 3],
    bound: [BoundWords; 3],
    length: [u32; 3],
}

impl Lent {
    fn new(case: &Case) -> Lent {
        Lent {
            table: Guarded::new(&case.table),
            goal: Guarded::new(&case.goal),
            weights: Guarded::new(&case.weights),
            answer: Guarded::new(&vec![FILL; case.answer_len]),
            result: [[STALE; RESULT_WORDS]; 3],
            bound: [[STALE; BOUND_WORDS]; 3],
            length: [STALE; 3],
        }
    }

    /// Makes the call: the number returned.
    fn call(&mut self, call: Call, limit: u32) -> u32 {
        let (table, goal) = (self.table.lent(), self.goal.lent());
        let (result, bound) = (&mut self.result[1], &mut self.bound[1]);
        let (answer, length) = (self.answer.lent_mut(), &mut self.length[1]);
        match call {
            Call::Check => check(table, result),
            Call::Run => run(table, goal, limit, answer, result),
            Call::Weigh => weigh(table, self.weights.lent(), goal, result, bound),
            Call::FindWeights => find_weights(table, self.weights.lent_mut(), result),
            Call::ReadText => read_text(table, answer, result, length),
            Call::PrintText => print_text(table, answer, result, length),
        }
    }

    /// What a call changed that it may not, if there is such a thing.
    fn fault(&self, case: &Case) -> Result<(), String> {
        let kept = self.table.holds(&case.table) && self.goal.holds(&case.goal);
        let reads_weights = case.call != Call::FindWeights;
        let kept = kept && (!reads_weights || self.weights.holds(&case.weights));
        require(kept, "a buffer that is only read was changed")?;
        let around =
            self.answer.holds(self.answer.lent()) && self.weights.holds(self.weights.lent());
        require(around, "bytes around a buffer were changed")?;
        require(self.guards_kept(), "words around a result were changed")
    }

    /// Whether the words before and after result, bound and length are as they were.
    fn guards_kept(&self) -> bool {
        let stale = |words: &[u32]| words.iter().all(|word| *word == STALE);
        let around = |at: usize| {
            stale(&self.result[at]) && stale(&self.bound[at]) && stale(&[self.length[at]])
        };
        around(0) && around(2)
    }
}

/// The library's verdict on a case, or what the call did that no call may do.
pub fn verdict(case: &Case) -> Result<Verdict, String> {
    let mut lent = Lent::new(case);
    let number = lent.call(case.call, case.limit);
    lent.fault(case)?;
    require(
        number == lent.result[1][0],
        "the number returned is not the result's",
    )?;
    let mut verdict = Verdict::of_check(Outcome::from(lent.result[1]));
    match case.call {
        Call::Check => {}
        Call::Run => verdict.answer = lent.answer.lent().to_vec(),
        Call::Weigh => verdict.bound = lent.bound[1],
        Call::FindWeights => verdict.weights = lent.weights.lent().to_vec(),
        Call::ReadText | Call::PrintText => {
            verdict.length = lent.length[1];
            verdict.answer = lent.answer.lent().to_vec();
        }
    }
    Ok(verdict)
}

fn require(holds: bool, complaint: &str) -> Result<(), String> {
    if holds {
        Ok(())
    } else {
        Err(complaint.to_string())
    }
}
