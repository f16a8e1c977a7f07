//! Kinds, markings and the rules that make a marking acceptable: refusals 7
//! and 8.

use std::fmt;

use crate::refusal::{KindRule, Reason, Refusal};
use crate::routine::Routine;
use crate::rows::{Command, Expression, Type};

/// In rising order, which is the order of their bytes in a marking.
#[derive(Clone, Copy, Debug, PartialEq, Eq, PartialOrd, Ord, Hash)]
pub enum Kind {
    Safe,
    Seq,
    Dynamic,
}

impl Kind {
    pub const ALL: [Kind; 3] = [Kind::Safe, Kind::Seq, Kind::Dynamic];

    pub fn from_byte(byte: u8) -> Option<Kind> {
        Self::ALL.get(usize::from(byte)).copied()
    }

    pub fn byte(self) -> u8 {
        self as u8
    }
}

impl fmt::Display for Kind {
    fn fmt(&self, f: &mut fmt::Formatter<'_>) -> fmt::Result {
        f.pad(match self {
            Kind::Safe => "SAFE",
            Kind::Seq => "SEQ",
            Kind::Dynamic => "DYNAMIC",
        })
    }
}

/// A kind for each type row.
#[derive(Clone, Debug, PartialEq, Eq)]
pub struct Marking(pub(crate) Vec<Kind>);

impl Marking {
    /// Every type row marked alike.
    pub fn uniform(routine: &Routine, kind: Kind) -> Marking {
        Marking(vec![kind; routine.type_count()])
    }

    /// Refusal 7: the length, then the bytes.
    pub fn from_bytes(routine: &Routine, bytes: &[u8]) -> Result<Marking, Refusal> {
        let types = routine.type_count();
        let given = bytes.len();
        if given != types {
            let reason = Reason::MarkingLength { given, types };
            return Err(Refusal::new(reason, given.min(types)));
        }
        bytes
            .iter()
            .enumerate()
            .map(|(index, &byte)| {
                Kind::from_byte(byte).ok_or_else(|| Refusal::new(Reason::MarkingByte(byte), index))
            })
            .collect::<Result<_, _>>()
            .map(Marking)
    }

    pub fn to_bytes(&self) -> Vec<u8> {
        self.0.iter().map(|kind| kind.byte()).collect()
    }

    pub fn kinds(&self) -> &[Kind] {
        &self.0
    }

    /// The kind of a reference; none for int.
    pub fn kind(&self, t: Type) -> Option<Kind> {
        let row = usize::from(t.0).checked_sub(1)?;
        Some(self.0[row])
    }
}

/// Says whether a marking is acceptable: refusal 8 at the first row that
/// breaks a rule.
pub fn check(routine: &Routine, marking: &Marking) -> Result<(), Refusal> {
    let refuse = |rule, place| Err(Refusal::new(Reason::Kind(rule), place));

    for t in routine.types() {
        if marking.kind(t) == Some(Kind::Dynamic) {
            let target_kind = routine.target(t).and_then(|target| marking.kind(target));
            if !matches!(target_kind, None | Some(Kind::Dynamic)) {
                return refuse(KindRule::DynamicTarget, routine.type_place(t));
            }
        }
    }
    for (e, expression) in routine.expressions() {
        let broken = match expression {
            Expression::Sum { pointer, .. } => {
                let safe = marking.kind(routine.type_of(pointer)) == Some(Kind::Safe);
                safe.then_some(KindRule::SumNotSafe)
            }
            Expression::Cast { value, to } => {
                let converts = converts(routine, marking, routine.type_of(value), to);
                (!converts).then_some(KindRule::CastConverts)
            }
            _ => None,
        };
        if let Some(rule) = broken {
            return refuse(rule, routine.expression_place(e));
        }
    }
    for (c, command) in routine.commands() {
        if let Command::Store { pointer, value } = command {
            let from = routine.type_of(value);
            let to = routine.target(routine.type_of(pointer));
            if !to.is_some_and(|to| converts(routine, marking, from, to)) {
                return refuse(KindRule::StoreConverts, routine.command_place(c));
            }
        }
    }
    Ok(())
}

/// The conversion rule.
pub fn converts(routine: &Routine, marking: &Marking, from: Type, to: Type) -> bool {
    match (marking.kind(from), marking.kind(to)) {
        (_, None) => true,
        (None, Some(to)) => to != Kind::Safe,
        (Some(Kind::Dynamic), Some(Kind::Dynamic)) => true,
        (Some(f), Some(t)) => {
            (f == t || (f == Kind::Seq && t == Kind::Safe))
                && equal_targets(routine, marking, from, to)
        }
    }
}

/// Two types are equal when both are int, or both are references of equal
/// kind that are DYNAMIC or have equal targets.
pub fn equal(routine: &Routine, marking: &Marking, a: Type, b: Type) -> bool {
    let (mut a, mut b) = (a, b);
    // Targets have lower numbers, so this goes down to int at the latest.
    loop {
        match (marking.kind(a), marking.kind(b)) {
            (None, None) => return true,
            (Some(x), Some(y)) if x == y => {
                if x == Kind::Dynamic {
                    return true;
                }
            }
            _ => return false,
        }
        match (routine.target(a), routine.target(b)) {
            (Some(x), Some(y)) => (a, b) = (x, y),
            _ => return false,
        }
    }
}

fn equal_targets(routine: &Routine, marking: &Marking, a: Type, b: Type) -> bool {
    match (routine.target(a), routine.target(b)) {
        (Some(x), Some(y)) => equal(routine, marking, x, y),
        _ => false,
    }
}
