//! Measuring engines against each other in one process: what they run, and how they are timed.

pub mod large;
#[cfg(feature = "library")]
pub mod libraries;
pub mod loads;
pub mod older;
pub mod quotients;
pub mod texts;
pub mod timing;
