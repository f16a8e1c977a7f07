//! Numbers, types, rows and refusals as people are told of them.

use crate::infer::infer;
use crate::kind::{check, Kind, Marking};
use crate::reader::read;
use crate::refusal::{Reason, Refusal};
use crate::routine::Routine;
use crate::rows::{Cmd, Command, Expr, Expression, Section, Type};
use crate::text;

/// What each check is about, by its number.
pub const SUBJECTS: [&str; 5] = ["", "address 0", "bounds", "home 0", "zero divisor"];

/// So many of a thing: `1 byte`, `2 bytes`.
pub fn count(number: usize, thing: &str) -> String {
    match number {
        1 => format!("1 {thing}"),
        _ => format!("{number} {thing}s"),
    }
}

/// A type with its kind, in a remark: `t1 SEQ`, `int`.
pub fn remarked(marking: &Marking, t: Type) -> String {
    match marking.kind(t) {
        Some(kind) => format!("{t} {kind}"),
        None => t.to_string(),
    }
}

/// A type with its kind, in a sentence: `SEQ t1`, `int`.
fn kinded(marking: &Marking, t: Type) -> String {
    match marking.kind(t) {
        Some(kind) => format!("{kind} {t}"),
        None => t.to_string(),
    }
}

/// What is wrong with the row at the place of refusal 8, after the row's name
/// and `is` or `would be`.
pub fn breach(routine: &Routine, marking: &Marking, refusal: &Refusal, is: &str) -> String {
    let kinded = |t| kinded(marking, t);
    match routine.row_at(refusal.place) {
        Some((Section::Types, index)) => {
            let t = Type(index as u16 + 1);
            let target = routine.target(t).unwrap_or(Type::INT);
            let of = kinded(target);
            format!("{t} {is} a DYNAMIC type whose target, {of}, is not DYNAMIC")
        }
        Some((Section::Expressions, index)) => {
            let e = Expr(index as u16);
            match routine.expression(e) {
                Expression::Cast { value, to } => {
                    let from = routine.type_of(value);
                    let targets = unequal(routine, marking, from, to);
                    let (from, to) = (kinded(from), kinded(to));
                    format!("{e} {is} a cast from {from} to {to}{targets}")
                }
                _ => format!("{e} {is} a pointer sum on a SAFE pointer"),
            }
        }
        Some((Section::Commands, index)) => {
            let c = Cmd(index as u16);
            match routine.command(c) {
                Command::Store { pointer, value } => {
                    let from = routine.type_of(value);
                    let to = routine.target(routine.type_of(pointer));
                    let to = to.unwrap_or(Type::INT);
                    let targets = unequal(routine, marking, from, to);
                    let (from, to) = (kinded(from), kinded(to));
                    format!("{c} {is} a store of {from} in a cell of {to}{targets}")
                }
                _ => refusal.reason.to_string(),
            }
        }
        _ => refusal.reason.to_string(),
    }
}

/// The targets of two types, where it is for them that one does not convert to
/// the other.
fn unequal(routine: &Routine, marking: &Marking, from: Type, to: Type) -> String {
    let kinds = (marking.kind(from), marking.kind(to));
    let by_kinds = matches!(
        kinds,
        (Some(Kind::Safe | Kind::Seq), Some(Kind::Safe)) | (Some(Kind::Seq), Some(Kind::Seq))
    );
    match (routine.target(from), routine.target(to)) {
        (Some(a), Some(b)) if by_kinds => {
            let (a, b) = (kinded(marking, a), kinded(marking, b));
            format!(", whose targets, {a} and {b}, are not equal")
        }
        _ => String::new(),
    }
}

/// A routine with the given marking, or with its least one where none is
/// given; or the refusal in words.
pub fn accept(file: &[u8], marking: Option<&[u8]>) -> Result<(Routine, Marking), String> {
    let routine = read(file).map_err(|refusal| refused(file, &refusal, &refusal.reason))?;
    let Some(bytes) = marking else {
        let least = infer(&routine);
        return Ok((routine, least));
    };
    let marking = Marking::from_bytes(&routine, bytes)
        .map_err(|refusal| refused(file, &refusal, &refusal.reason))?;
    if let Err(refusal) = check(&routine, &marking) {
        let words = breach(&routine, &marking, &refusal, "is");
        return Err(refused(file, &refusal, &words));
    }
    Ok((routine, marking))
}

/// A line with the refusal's number, place and words, and one with the row at
/// the place, if there is one.
fn refused(file: &[u8], refusal: &Refusal, words: &dyn std::fmt::Display) -> String {
    let line = format!("{}: {words}\n", refusal.head());
    let row = match refusal.reason {
        // Their places are not in the file.
        Reason::MarkingLength { .. } | Reason::MarkingByte(_) | Reason::TooShort(_) => None,
        _ => text::row_at(file, refusal.place),
    };
    match row {
        Some(row) => format!("{line}  {row}\n"),
        None => line,
    }
}
