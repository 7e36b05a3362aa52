//! Rules as text: document 02's No. 2.
//!
//! - [`token`]: the tokens of a text (49).
//! - [`marks`]: the marks of comparators and operations.
//! - [`grammar`]: the grammar written down as data, and where tokens begin no text of it (50).
//! - [`tree`]: the table that the tokens of a text stand for.
//! - [`bytes`]: a table's bytes.
//! - [`read`]: the reader, and the order of its tests (48, 49, 50, 51, 19, 20, 22).
//! - [`print`](mod@print): the printer (16 to 23, 51).

pub mod bytes;
pub mod grammar;
pub mod marks;
pub mod print;
pub mod read;
pub mod token;
pub mod tree;

pub use print::print_text;
pub use read::read_text;
