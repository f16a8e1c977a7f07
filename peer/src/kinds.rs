//! The program `kinds`: a file run under its inferred marking.

use std::fmt::Write;

use crate::infer::infer;
use crate::kind::Marking;
use crate::reader::read;
use crate::refusal::Refusal;
use crate::routine::Routine;
use crate::rows::LONGEST_FILE;
use crate::run::{run, Answer};

pub const FUEL: u32 = 1_000_000;

/// The first bytes of an input settle the answer: a file this long is refused
/// whatever follows.
pub const DECIDING_BYTES: usize = LONGEST_FILE + 1;

/// All that the program prints for this file.
pub fn output(file: &[u8]) -> String {
    match infer_and_run(file) {
        Ok((routine, marking, answer)) => {
            let mut text = String::new();
            for (t, kind) in routine.types().zip(marking.kinds()) {
                let _ = writeln!(text, "{} {kind}", t.0);
            }
            let _ = writeln!(text, "{answer}");
            text
        }
        Err(refusal) => format!("refused {} {}\n", refusal.number(), refusal.place),
    }
}

fn infer_and_run(file: &[u8]) -> Result<(Routine, Marking, Answer), Refusal> {
    let routine = read(file)?;
    let marking = infer(&routine);
    let mut memory = vec![0; routine.cells()];
    let answer = run(&routine, &marking, FUEL, &mut memory)?;
    Ok((routine, marking, answer))
}
