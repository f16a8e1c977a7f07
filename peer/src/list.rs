//! A routine under a marking, row by row: why each type has its kind, the
//! checks that each access and conversion makes, those that it does not need,
//! with the rule that spares them, and what each start value's cell holds.

use std::fmt::{self, Write};

use crate::kind::{check, Kind, Marking};
use crate::memory::{start_value, Layout};
use crate::routine::Routine;
use crate::rows::{Command, Expr, Expression, Operator, StartValue, Type};
use crate::text::RowText;
use crate::value::Value;
use crate::wording::{breach, count, remarked, SUBJECTS};

/// One check at one row, and why it is made there or left out.
struct Note {
    made: bool,
    check: usize,
    why: &'static str,
}

const fn made(check: usize, why: &'static str) -> Note {
    let made = true;
    Note { made, check, why }
}

const fn left_out(check: usize, why: &'static str) -> Note {
    let made = false;
    Note { made, check, why }
}

/// The checks of a read or store through a pointer of this kind.
fn access(through: Kind) -> [Note; 3] {
    match through {
        Kind::Safe => [
            made(1, "a SAFE pointer may be null"),
            left_out(
                2,
                "no sum is on a SAFE pointer, and a SEQ one is checked where it becomes SAFE",
            ),
            left_out(3, "no int and no DYNAMIC pointer converts to SAFE"),
        ],
        Kind::Seq => [
            made(2, "a SEQ pointer may have any offset, or be made of an int"),
            made(1, "null, the pair (0, 0), is within the bounds of home 0"),
            left_out(
                3,
                "of home 0, check 2 lets only null by, and check 1 stops it",
            ),
        ],
        Kind::Dynamic => [
            made(3, "a DYNAMIC pointer may be null, or made of an int"),
            made(2, "a DYNAMIC pointer may have any offset"),
            left_out(
                1,
                "past check 3 the pointer has a home, and none has address 0",
            ),
        ],
    }
}

/// The check of a conversion; none where no pointer is in play.
fn conversion(from: Option<Kind>, to: Option<Kind>) -> Option<Note> {
    Some(match (from, to) {
        (None, None) => return None,
        (Some(_), None) => left_out(2, "anything converts to int: a number gives no access"),
        (Some(Kind::Seq), Some(Kind::Safe)) => made(
            2,
            "SEQ to SAFE: the pair becomes an address and loses its bounds",
        ),
        (_, Some(Kind::Safe)) => left_out(2, "SAFE to SAFE: it is 0 or a cell's address already"),
        (None, Some(Kind::Seq)) => {
            left_out(2, "int to SEQ: a pair of home 0, which no access lets by")
        }
        (None, Some(Kind::Dynamic)) => left_out(
            2,
            "int to DYNAMIC: a pair of home 0, which no access lets by",
        ),
        (Some(_), Some(Kind::Seq)) => left_out(
            2,
            "SEQ to SEQ: the pair stays as it is, for its accesses to check",
        ),
        (Some(_), Some(Kind::Dynamic)) => left_out(
            2,
            "DYNAMIC to DYNAMIC: the pair stays as it is, for its accesses to check",
        ),
    })
}

/// The listing of a routine under an acceptable marking.
pub fn list(routine: &Routine, marking: &Marking) -> String {
    let mut listing = Listing {
        routine,
        marking,
        text: String::new(),
        made: [0; 5],
        left_out: [0; 5],
    };
    listing.types();
    listing.homes();
    listing.expressions();
    listing.commands();
    listing.values();
    listing.summary();
    listing.text
}

struct Listing<'a> {
    routine: &'a Routine,
    marking: &'a Marking,
    text: String,
    /// By number of the check.
    made: [usize; 5],
    left_out: [usize; 5],
}

impl Listing<'_> {
    fn line(&mut self, line: fmt::Arguments) {
        // Writing to a string does not fail.
        let _ = writeln!(self.text, "{line}");
    }

    fn row(&mut self, name: impl fmt::Display, row: RowText, remark: &str) {
        let line = format!("  {name} = {row}");
        let line = format!("{line:36}  {remark}");
        self.line(format_args!("{}", line.trim_end()));
    }

    fn note(&mut self, what: &str, note: Note) {
        let Note { check, why, .. } = note;
        let verdict = if note.made {
            self.made[check] += 1;
            "makes"
        } else {
            self.left_out[check] += 1;
            "leaves out"
        };
        let subject = SUBJECTS[check];
        self.line(format_args!(
            "      {what:6} {verdict:10} check {check}, {subject}: {why}"
        ));
    }

    /// A type with its kind.
    fn kinded(&self, t: Type) -> String {
        remarked(self.marking, t)
    }

    fn types(&mut self) {
        self.line(format_args!("types"));
        for t in self.routine.types() {
            let target = self.routine.target(t).unwrap_or(Type::INT);
            let remark = self.reason(t);
            self.row(t, RowText::Type(target), &remark);
        }
        if let Some(reason) = self.dynamic_reason() {
            self.line(format_args!("  {reason}"));
        }
    }

    /// Which row is broken if all DYNAMIC types are SEQ, for each of them may be
    /// DYNAMIC because another is. None where none is.
    fn dynamic_reason(&self) -> Option<String> {
        let mut lowered = self.marking.clone();
        for kind in &mut lowered.0 {
            *kind = (*kind).min(Kind::Seq);
        }
        if lowered == *self.marking {
            return None;
        }
        let broken = match check(self.routine, &lowered) {
            Ok(()) => "no rule would be broken".to_string(),
            Err(refusal) => {
                let breach = breach(self.routine, &lowered, &refusal, "would be");
                format!("{breach} (place {})", refusal.place)
            }
        };
        Some(format!("with SEQ for every DYNAMIC, {broken}"))
    }

    /// The type's kind, and which row is broken if it alone is marked lower.
    fn reason(&self, t: Type) -> String {
        let kind = self.marking.kind(t).unwrap_or(Kind::Safe);
        let mut reason = format!("{t} is {kind}");
        for lower in Kind::ALL.into_iter().filter(|&lower| lower < kind) {
            let mut lowered = self.marking.clone();
            lowered.0[usize::from(t.0) - 1] = lower;
            reason = match check(self.routine, &lowered) {
                Ok(()) => return format!("{t} is {kind}, though {lower} would do"),
                Err(refusal) => {
                    let breach = breach(self.routine, &lowered, &refusal, "would be");
                    let place = refusal.place;
                    format!("{t} is {kind}: as {lower}, {breach} (place {place})")
                }
            };
        }
        reason
    }

    fn homes(&mut self) {
        let layout = Layout::new(self.routine);
        self.line(format_args!("homes"));
        for (home, row) in self.routine.homes() {
            let start = layout.start(home);
            let addresses = match layout.size(home) {
                1 => format!("address {start}"),
                size => format!("addresses {start} to {}", start + size - 1),
            };
            let remark = format!(
                "{}, {addresses}, cells of {}",
                self.kinded(row.of),
                self.kinded(self.routine.element(row)),
            );
            self.row(home, RowText::Home(row), &remark);
        }
    }

    fn expressions(&mut self) {
        self.line(format_args!("expressions"));
        for (e, row) in self.routine.expressions() {
            let remark = self.kinded(self.routine.type_of(e));
            self.row(e, RowText::Expression(row), &remark);
            match row {
                Expression::Cast { value, to } => self.conversion("cast", value, to),
                Expression::Sum { .. } => self.note(
                    "sum",
                    left_out(
                        2,
                        "the pointer is not SAFE and keeps its home, for its accesses to check",
                    ),
                ),
                Expression::Read { pointer } => self.access("read", pointer),
                Expression::Operation(Operator::Divide | Operator::Remainder, ..) => {
                    self.note("divide", made(4, "kinds say nothing of numbers"));
                }
                _ => {}
            }
        }
    }

    fn commands(&mut self) {
        self.line(format_args!("commands"));
        for (c, row) in self.routine.commands() {
            self.row(c, RowText::Command(row), "");
            if let Command::Store { pointer, value } = row {
                self.access("store", pointer);
                let of = self.routine.type_of(pointer);
                let cell = self.routine.target(of).unwrap_or(Type::INT);
                self.conversion("value", value, cell);
            }
        }
    }

    fn values(&mut self) {
        if !self.routine.has_values() {
            return;
        }
        self.line(format_args!("values"));
        for (start, row) in self.routine.start_values() {
            let remark = self.start(row);
            self.row(start, RowText::StartValue(row), &remark);
        }
    }

    /// What a start value's cell holds, and why.
    fn start(&self, row: StartValue) -> String {
        let (home, cell) = (row.home.0, row.cell);
        let of = self.routine.home(row.home).of;
        let kind = self.marking.kind(of).unwrap_or(Kind::Safe);
        let (value, why) = match start_value(self.routine, self.marking, row) {
            Value::Number(n) => (format!("the number {n}"), "so its int cells hold numbers"),
            Value::Pair(_, n) => (
                format!("pair (0, {n})"),
                "so all its cells hold pairs, a number as one of home 0",
            ),
        };
        format!("cell {cell} of home {home} starts as {value}: the home is {kind}, {why}")
    }

    fn access(&mut self, what: &str, pointer: Expr) {
        if let Some(through) = self.marking.kind(self.routine.type_of(pointer)) {
            for note in access(through) {
                self.note(what, note);
            }
        }
    }

    fn conversion(&mut self, what: &str, value: Expr, to: Type) {
        let from = self.marking.kind(self.routine.type_of(value));
        if let Some(note) = conversion(from, self.marking.kind(to)) {
            self.note(what, note);
        }
    }

    fn summary(&mut self) {
        self.line(format_args!("checks"));
        for (check, subject) in SUBJECTS.iter().enumerate().skip(1) {
            let (made, left_out) = (count(self.made[check], "place"), self.left_out[check]);
            self.line(format_args!(
                "  check {check}, {subject}: made in {made}, left out in {left_out}"
            ));
        }
    }
}
