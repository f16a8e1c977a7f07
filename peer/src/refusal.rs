//! The ten numbers that say no, each with its place and its reason in words.

use std::fmt;

use crate::rows::{Flaw, Section};
use crate::wording::count;

/// What is due at a place of the file.
#[derive(Clone, Copy, Debug, PartialEq, Eq, Hash)]
pub enum Due {
    Count,
    Row,
}

/// The shape that an operand needs and does not have.
#[derive(Clone, Copy, Debug, PartialEq, Eq, Hash)]
pub enum Needed {
    Int,
    Reference,
}

/// How a start value's row does not rise above the row before it.
#[derive(Clone, Copy, Debug, PartialEq, Eq, Hash)]
pub enum Fall {
    SameCell,
    /// In the same home.
    LowerCell,
    LowerHome,
}

impl fmt::Display for Fall {
    fn fmt(&self, f: &mut fmt::Formatter<'_>) -> fmt::Result {
        f.write_str(match self {
            Fall::SameCell => "this row is for the same cell as the row before it",
            Fall::LowerCell => "this row is for a lower cell than the row before it",
            Fall::LowerHome => "this row is for a lower home than the row before it",
        })
    }
}

/// The rules that a marking can break.
#[derive(Clone, Copy, Debug, PartialEq, Eq, Hash)]
pub enum KindRule {
    /// A DYNAMIC type whose target is a reference has a DYNAMIC target.
    DynamicTarget,
    /// The pointer of a sum is not SAFE.
    SumNotSafe,
    /// A cast converts.
    CastConverts,
    /// A store's value converts to the target of the pointer's type.
    StoreConverts,
}

impl fmt::Display for KindRule {
    fn fmt(&self, f: &mut fmt::Formatter<'_>) -> fmt::Result {
        f.write_str(match self {
            KindRule::DynamicTarget => {
                "this type is DYNAMIC and its target is a reference that is not"
            }
            KindRule::SumNotSafe => "the pointer of this sum is SAFE",
            KindRule::CastConverts => "this cast's types do not convert",
            KindRule::StoreConverts => {
                "this store's value does not convert to the pointer's target"
            }
        })
    }
}

/// A buffer that a call is lent.
#[derive(Clone, Copy, Debug, PartialEq, Eq, Hash)]
pub enum Lent {
    Marking,
    Memory,
}

#[derive(Clone, Copy, Debug, PartialEq, Eq, Hash)]
pub enum Reason {
    CutShort(Section, Due),
    OverLimit(Section, u16),
    NoCommands,
    BadRow(Section, Flaw),
    SpareBytes,
    TooManyCells,
    NotRising(Fall),
    Shape(Section, Needed),
    MarkingLength { given: usize, types: usize },
    MarkingByte(u8),
    Kind(KindRule),
    TooShort(Lent),
}

/// A call's answer no: the reason, which has a number, and the place.
#[derive(Clone, Copy, Debug, PartialEq, Eq)]
pub struct Refusal {
    pub reason: Reason,
    pub place: usize,
}

impl Refusal {
    pub fn new(reason: Reason, place: usize) -> Refusal {
        Refusal { reason, place }
    }

    pub fn number(&self) -> u8 {
        match self.reason {
            Reason::CutShort(..) => 1,
            Reason::OverLimit(..) | Reason::NoCommands => 2,
            Reason::BadRow(..) => 3,
            Reason::SpareBytes => 4,
            Reason::TooManyCells => 5,
            Reason::Shape(..) => 6,
            Reason::MarkingLength { .. } | Reason::MarkingByte(_) => 7,
            Reason::Kind(_) => 8,
            Reason::TooShort(_) => 9,
            Reason::NotRising(_) => 10,
        }
    }

    /// Number and place, for people. Programs print the two numbers only.
    pub fn head(&self) -> String {
        let place = match self.reason {
            Reason::MarkingLength { .. } | Reason::MarkingByte(_) => "index",
            Reason::TooShort(_) => "length",
            _ => "byte",
        };
        format!("refused {} at {place} {}", self.number(), self.place)
    }
}

/// For people: number, place and words.
impl fmt::Display for Refusal {
    fn fmt(&self, f: &mut fmt::Formatter<'_>) -> fmt::Result {
        write!(f, "{}: {}", self.head(), self.reason)
    }
}

impl fmt::Display for Reason {
    fn fmt(&self, f: &mut fmt::Formatter<'_>) -> fmt::Result {
        match self {
            Reason::CutShort(section, Due::Count) => {
                write!(f, "the file ends before the count of {}", section.name())
            }
            Reason::CutShort(section, Due::Row) => write!(
                f,
                "the file ends before this {} row is whole",
                section.row_name()
            ),
            Reason::OverLimit(section, count) => write!(
                f,
                "a count of {count} {}, over the limit of {}",
                section.name(),
                section.limit()
            ),
            Reason::NoCommands => f.write_str("there are no commands"),
            Reason::BadRow(section, flaw) => {
                write!(f, "in this {} row, {flaw}", section.row_name())
            }
            Reason::SpareBytes => f.write_str("bytes follow the start values"),
            Reason::TooManyCells => f.write_str("with this home the cells exceed 4096"),
            Reason::NotRising(fall) => fall.fmt(f),
            Reason::Shape(Section::Values, _) => {
                f.write_str("the cells of this home are references, and a start value is an int")
            }
            Reason::Shape(_, Needed::Int) => {
                f.write_str("an operand is a reference where an int is needed")
            }
            Reason::Shape(_, Needed::Reference) => {
                f.write_str("an operand is int where a reference is needed")
            }
            Reason::MarkingLength { given, types } => {
                let (given, types) = (count(*given, "byte"), count(*types, "type"));
                write!(f, "a marking of {given} for {types}")
            }
            Reason::MarkingByte(byte) => write!(f, "marking byte {byte} is no kind"),
            Reason::Kind(rule) => rule.fmt(f),
            Reason::TooShort(Lent::Marking) => {
                f.write_str("the lent marking is shorter than the types")
            }
            Reason::TooShort(Lent::Memory) => {
                f.write_str("the lent memory is shorter than the cells")
            }
        }
    }
}

impl std::error::Error for Refusal {}
