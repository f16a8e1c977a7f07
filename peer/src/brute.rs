//! The least acceptable marking by trying them all: for files with few types.

use crate::kind::{check, Kind, Marking};
use crate::routine::Routine;

/// Every marking of so many types.
fn markings(types: usize) -> impl Iterator<Item = Marking> {
    let number = 3_usize.pow(types as u32);
    (0..number).map(move |mut code| {
        let mut kinds = Vec::with_capacity(types);
        for _ in 0..types {
            kinds.push(Kind::ALL[code % 3]);
            code /= 3;
        }
        Marking(kinds)
    })
}

/// The acceptable marking that is nowhere above another acceptable one; none
/// if no marking is acceptable or none of them is least.
pub fn least(routine: &Routine) -> Option<Marking> {
    let accepted: Vec<Marking> = markings(routine.type_count())
        .filter(|marking| check(routine, marking).is_ok())
        .collect();
    let below = |a: &Marking, b: &Marking| a.0.iter().zip(&b.0).all(|(x, y)| x <= y);
    let least = accepted
        .iter()
        .find(|candidate| accepted.iter().all(|other| below(candidate, other)))?;
    Some(least.clone())
}
