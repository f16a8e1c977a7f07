//! The text form of routine files, which a person can read and write:
//!
//! ```text
//! types
//!   t1 = ref int
//! homes
//!   h1 = t1 size 3
//! expressions
//!   e0 = home h1
//!   e1 = literal 7
//! commands
//!   c0 = store through e0 value e1
//! values
//!   v0 = home h1 cell 2 value 7
//! ```
//!
//! A section is in the file exactly if its header is in the text. Its count
//! is the number of its rows, or the number that the header gives. A row that
//! has no form of its own is written `e3 = row TAG A B`, and `bytes 2a 00`
//! stands for bytes as they are. What follows a `#` is for the reader.

mod names;
mod parse;
mod print;

pub use parse::{parse, TextError};
pub use print::{print, row_at, RowText};
