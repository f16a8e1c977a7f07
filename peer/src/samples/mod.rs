//! Named routine files for benchmarks, and the cases: the twelve, and further
//! ones.

mod cases;
mod further;
mod inference;
mod programs;
mod values;

pub use cases::{cases, Case, PRINTED_CASE};
pub use further::further;
pub use inference::{deep_pairs, falling_dynamic, ladder, longest, rising_seq};
pub use programs::{
    copy, counting_loop, deep_commands, deep_expression, pointers, sort, start_values, tray,
};
pub use values::start_value_cases;

use crate::infer::infer;
use crate::kind::{Kind, Marking};
use crate::reader::read;

/// A file to run: under this marking, with this fuel.
#[derive(Clone, Debug)]
pub struct Sample {
    pub name: String,
    pub file: Vec<u8>,
    pub marking: Vec<u8>,
    pub fuel: u32,
}

impl Sample {
    /// A well-formed file under its least marking.
    fn least(name: impl Into<String>, file: Vec<u8>) -> Sample {
        Sample::marked(name, file, infer)
    }

    fn dynamic(name: impl Into<String>, file: Vec<u8>) -> Sample {
        Sample::marked(name, file, |routine| {
            Marking::uniform(routine, Kind::Dynamic)
        })
    }

    fn marked(
        name: impl Into<String>,
        file: Vec<u8>,
        mark: impl Fn(&crate::Routine) -> Marking,
    ) -> Sample {
        let marking = read(&file).map_or_else(|_| Vec::new(), |routine| mark(&routine).to_bytes());
        Sample {
            name: name.into(),
            file,
            marking,
            fuel: 1_000_000,
        }
    }
}

/// Every sample. The thirty routines of a tray event are `tray-1` to `tray-30`.
pub fn all() -> Vec<Sample> {
    let mut samples = vec![
        Sample::least("counting-loop", counting_loop(10_000).file()),
        Sample::least("copy-seq", copy(1000).file()),
        Sample::dynamic("copy-dynamic", copy(1000).file()),
        Sample::least("deep-expression", deep_expression().file()),
        Sample::least("deep-commands", deep_commands().file()),
        Sample::least("sort", sort(48).file()),
        Sample::least("pointers", pointers(16).file()),
        Sample::least("start-values", start_values().file()),
        Sample::dynamic("start-values-dynamic", start_values().file()),
        Sample::least("longest", longest().file()),
        Sample::least("rising-seq", rising_seq().file()),
        Sample::least("falling-dynamic", falling_dynamic().file()),
        Sample::least("deep-pairs", deep_pairs().file()),
        Sample::least("ladder", ladder().file()),
    ];
    let trays = tray().into_iter().zip(1..);
    samples.extend(trays.map(|(b, n)| Sample::least(format!("tray-{n}"), b.file())));
    samples
}
