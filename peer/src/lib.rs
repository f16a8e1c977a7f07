//! A second implementation of the reader, kind inference, marking checker and
//! runner for table-encoded routines, written from the rules alone.
//!
//! On a decoded [`Routine`]: [`read`], [`check`], [`infer`] and [`run`]. From
//! bytes: [`read`], [`check_file`], [`infer_file`] and [`run_file`].

pub mod brute;
pub mod builder;
pub mod calls;
pub mod compare;
pub mod generate;
pub mod infer;
pub mod kind;
pub mod kinds;
pub mod list;
pub mod memory;
pub mod probe;
pub mod random;
pub mod reader;
pub mod refusal;
pub mod report;
pub mod routine;
pub mod rows;
pub mod run;
pub mod samples;
pub mod selftest;
pub mod show;
pub mod text;
pub mod validity;
pub mod value;
pub mod wording;

pub use calls::{check_file, infer_file, run_file};
pub use infer::infer;
pub use kind::{check, Kind, Marking};
pub use reader::read;
pub use refusal::Refusal;
pub use routine::Routine;
pub use run::{run, Answer, Outcome};
