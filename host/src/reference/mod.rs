//! The second engine: document 01 in Rust, written to be read and compared with.
//!
//! - [`numbers`]: operations and comparators, exact; quotients as document 02's No. 1 has them.
//! - [`table`]: a decoded table.
//! - [`fields`]: slots, expressions and places from bytes (20).
//! - [`check`](mod@check): a table record by record (16 to 23).
//! - [`goal`]: a goal's facts (32, 34, 33).
//! - [`occurrences`]: each symbol's head places, in their order.
//! - [`state`]: stack, store, history and next identifier.
//! - [`instances`]: the instances of an occurrence, in their order.
//! - [`step`]: what the top entry decides.
//! - [`run`](mod@run): steps up to an ending (0 to 7, 35, 36) and the answer.
//! - [`weigh`](mod@weigh): weighing (40, 41, 42).
//! - [`find`]: looking for weights (40, 42).
//! - [`text`]: tables read from text and printed as text, document 02's No. 2 (48 to 51).

pub mod check;
pub mod fields;
pub mod find;
pub mod goal;
pub mod instances;
pub mod numbers;
pub mod occurrences;
pub mod run;
pub mod state;
pub mod step;
pub mod table;
pub mod text;
pub mod weigh;

pub use check::check;
pub use find::find_weights;
pub use run::run;
pub use text::{print_text, read_text};
pub use weigh::weigh;
