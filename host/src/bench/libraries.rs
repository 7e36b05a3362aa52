//! The libraries that are timed: that of the repository, and an older one where the feature
//! `old_library` links it. Both are called through the same code, with buffers of the same length.

use crate::ffi::{self, STALE};
use crate::format::ANSWER_LEN;

/// How many words are lent for a result: more than any library writes, older or newer.
const LENT_WORDS: usize = 64;

type Check = unsafe extern "C" fn(*const u8, usize, *mut u32) -> u32;
type Run =
    unsafe extern "C" fn(*const u8, usize, *const u8, usize, u32, *mut u8, usize, *mut u32) -> u32;

/// The calls of a library that are timed.
pub struct Library {
    check: Check,
    run: Run,
}

/// The library of the repository.
pub const NEW: Library = Library {
    check: ffi::nadhirukh_check,
    run: ffi::nadhirukh_run,
};

/// The older one, if there is one.
#[cfg(not(feature = "old_library"))]
pub const OLD: Option<Library> = None;
#[cfg(feature = "old_library")]
pub const OLD: Option<Library> = Some(Library {
    check: old_nadhirukh_check,
    run: old_nadhirukh_run,
});

#[cfg(feature = "old_library")]
extern "C" {
    fn old_nadhirukh_check(table: *const u8, table_len: usize, result: *mut u32) -> u32;
    fn old_nadhirukh_run(
        table: *const u8,
        table_len: usize,
        goal: *const u8,
        goal_len: usize,
        limit: u32,
        answer: *mut u8,
        answer_len: usize,
        result: *mut u32,
    ) -> u32;
}

impl Library {
    /// Checks a table: the number returned.
    pub fn check(&self, table: &[u8], lent: &mut Lent) -> u32 {
        // SAFETY: slices are valid for their lengths and do not overlap, and a result has room.
        unsafe { (self.check)(table.as_ptr(), table.len(), lent.result.as_mut_ptr()) }
    }

    /// Runs a goal: the number returned.
    pub fn run(&self, table: &[u8], goal: &[u8], limit: u32, lent: &mut Lent) -> u32 {
        // SAFETY: as above.
        unsafe {
            (self.run)(
                table.as_ptr(),
                table.len(),
                goal.as_ptr(),
                goal.len(),
                limit,
                lent.answer.as_mut_ptr(),
                lent.answer.len(),
                lent.result.as_mut_ptr(),
            )
        }
    }
}

/// What is lent to a library, and holds what a call gave.
pub struct Lent {
    pub answer: [u8; ANSWER_LEN],
    result: [u32; LENT_WORDS],
}

impl Default for Lent {
    fn default() -> Lent {
        Lent {
            answer: [0; ANSWER_LEN],
            result: [STALE; LENT_WORDS],
        }
    }
}

impl Lent {
    /// The words of the result: those up to the last that was written. No load's result has a
    /// word as great as a stale one.
    pub fn words(&self) -> &[u32] {
        let last = self.result.iter().rposition(|word| *word != STALE);
        &self.result[..last.map_or(0, |last| last + 1)]
    }

    /// In what an older library's call differs, if it does. A result may have got longer since, so
    /// the words that both have are compared.
    pub fn difference(&self, old: &Lent) -> Option<String> {
        let both = self.words().len().min(old.words().len());
        let (ours, theirs) = (&self.words()[..both], &old.words()[..both]);
        if ours != theirs {
            Some(format!(
                "the result is {:?}, the old one {:?}",
                ours, theirs
            ))
        } else if self.answer != old.answer {
            Some("the answers differ".to_string())
        } else {
            None
        }
    }
}
