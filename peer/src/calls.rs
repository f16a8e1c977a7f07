//! The calls as they are made from bytes, each with all its refusals in order.

use crate::infer::infer;
use crate::kind::{check, Marking};
use crate::reader::read;
use crate::refusal::{Lent, Reason, Refusal};
use crate::routine::Routine;
use crate::run::{run, Answer};

/// Those of a file, which are 1 to 6 and 10, then 7 and 8.
pub fn check_file(file: &[u8], marking: &[u8]) -> Result<(), Refusal> {
    accept(file, marking).map(|_| ())
}

/// Fills a lent marking with the least acceptable one: a file's refusals, then
/// 9.
pub fn infer_file(file: &[u8], lent: &mut [u8]) -> Result<(), Refusal> {
    let routine = read(file)?;
    let needed = routine.type_count();
    let Some(entries) = lent.get_mut(..needed) else {
        return Err(Refusal::new(Reason::TooShort(Lent::Marking), needed));
    };
    for (entry, kind) in entries.iter_mut().zip(infer(&routine).kinds()) {
        *entry = kind.byte();
    }
    Ok(())
}

/// Runs a file under a marking: a file's refusals, 7, 8, then 9.
pub fn run_file(
    file: &[u8],
    marking: &[u8],
    fuel: u32,
    memory: &mut [u64],
) -> Result<Answer, Refusal> {
    let (routine, marking) = accept(file, marking)?;
    run(&routine, &marking, fuel, memory)
}

/// A routine and an acceptable marking of it.
fn accept(file: &[u8], marking: &[u8]) -> Result<(Routine, Marking), Refusal> {
    let routine = read(file)?;
    let marking = Marking::from_bytes(&routine, marking)?;
    check(&routine, &marking)?;
    Ok((routine, marking))
}
