//! A run in words: how it ended and where, and what every cell holds.

use std::fmt::Write;

use crate::kind::{Kind, Marking};
use crate::memory::Layout;
use crate::routine::Routine;
use crate::rows::{Command, Expression, Home, Section};
use crate::run::{run_watched, Answer, Check, Outcome, Watch};
use crate::text;
use crate::value::Value;
use crate::wording::{accept, count, remarked, SUBJECTS};

/// Runs a file under the given marking, or under its least one where none is
/// given, and tells of it; or the refusal in words.
pub fn run(file: &[u8], marking: Option<&[u8]>, fuel: u32) -> Result<String, String> {
    let (routine, marking) = accept(file, marking)?;
    let mut memory = vec![0; routine.cells()];
    let mut failed = Failed(None);
    let answer = run_watched(&routine, &marking, fuel, &mut memory, &mut failed)
        .map_err(|refusal| format!("{refusal}\n"))?;
    let show = Show {
        file,
        routine: &routine,
        marking: &marking,
        layout: Layout::new(&routine),
    };
    let mut text = format!("{answer}\n");
    // Writing to a string does not fail.
    let _ = show.ending(&mut text, answer, failed.0);
    let _ = show.cells(&mut text, &memory);
    Ok(text)
}

/// Keeps the value that a check failed on.
struct Failed(Option<Value>);

impl Watch for Failed {
    fn failed(&mut self, value: Value) {
        self.0 = Some(value);
    }
}

struct Show<'a> {
    file: &'a [u8],
    routine: &'a Routine,
    marking: &'a Marking,
    layout: Layout,
}

impl Show<'_> {
    /// What happened, the row where it did, and why.
    fn ending(&self, text: &mut String, answer: Answer, failed: Option<Value>) -> std::fmt::Result {
        let place = answer.place;
        let units = count(answer.units as usize, "unit");
        match answer.outcome {
            Outcome::Done => return writeln!(text, "the body ended, after {units}"),
            Outcome::Fuel => writeln!(
                text,
                "the fuel was used up, after {units}; the row at place {place} was next"
            )?,
            Outcome::Check(check) => {
                let number = check.number();
                let subject = SUBJECTS[usize::from(number)];
                writeln!(
                    text,
                    "check {number}, {subject}, stopped the row at place {place}, after {units}"
                )?;
            }
            Outcome::Stuck => writeln!(
                text,
                "no rule covers the row at place {place}, after {units}"
            )?,
        }
        if let Some(row) = text::row_at(self.file, place) {
            writeln!(text, "  {row}")?;
        }
        if let Outcome::Check(check) = answer.outcome {
            if let Some(why) = self.why(check, place, failed) {
                writeln!(text, "  {why}")?;
            }
        }
        Ok(())
    }

    /// Which operand of the row at this place failed the check, and its value.
    fn why(&self, check: Check, place: usize, failed: Option<Value>) -> Option<String> {
        let was = failed.map(|value| self.pointer(value));
        match self.routine.row_at(place)? {
            (Section::Expressions, index) => match self.routine.expressions[index] {
                Expression::Read { pointer } => Some(format!("its pointer {pointer} was {}", was?)),
                Expression::Cast { value, .. } => {
                    Some(format!("{value} cannot become SAFE: it was {}", was?))
                }
                Expression::Operation(_, _, divisor) => {
                    Some(format!("its divisor {divisor} was 0"))
                }
                _ => None,
            },
            (Section::Commands, index) => match (self.routine.commands[index], check) {
                (Command::Store { value, .. }, Check::ConversionBounds) => {
                    Some(format!("{value} cannot become SAFE: it was {}", was?))
                }
                (Command::Store { pointer, .. }, _) => {
                    Some(format!("its pointer {pointer} was {}", was?))
                }
                _ => None,
            },
            _ => None,
        }
    }

    /// Every home with its cells.
    fn cells(&self, text: &mut String, memory: &[u64]) -> std::fmt::Result {
        let mut entries = memory.iter();
        for (home, row) in self.routine.homes() {
            let of = remarked(self.marking, row.of);
            let element = remarked(self.marking, self.routine.element(row));
            writeln!(text, "home {}, {of}, cells of {element}", home.0)?;
            for (cell, &entry) in entries.by_ref().take(usize::from(row.size)).enumerate() {
                if let Some(value) = Value::from_entry(entry) {
                    writeln!(text, "  cell {cell} = {}", self.held(home, value))?;
                }
            }
        }
        Ok(())
    }

    /// The value of a cell in this home.
    fn held(&self, home: Home, value: Value) -> String {
        let row = self.routine.home(home);
        let dynamic = self.marking.kind(row.of) == Some(Kind::Dynamic);
        match value {
            Value::Number(n) if self.routine.element(row).is_int() => n.to_string(),
            // Such a cell may be taken for a number and for a pointer.
            Value::Pair(Home::NULL, 0) if dynamic => "pair (0, 0), null or 0".to_string(),
            Value::Pair(Home::NULL, n) if dynamic => format!("pair (0, {n}), the number {n}"),
            value => self.pointer(value),
        }
    }

    /// A pointer's value, and where it points.
    fn pointer(&self, value: Value) -> String {
        match value {
            Value::Number(0) => "0, null".to_string(),
            Value::Number(address) => match self.layout.home_at(address) {
                Some(home) => {
                    let cell = address - self.layout.start(home);
                    format!("{address}, cell {cell} of home {}", home.0)
                }
                None => format!("{address}, in no home"),
            },
            Value::Pair(Home::NULL, 0) => "pair (0, 0), null".to_string(),
            Value::Pair(Home::NULL, n) => format!("pair (0, {n}), with no home"),
            Value::Pair(home, n) => {
                let (g, size) = (home.0, self.layout.size(home));
                let before = n.wrapping_neg();
                if n < size {
                    format!("pair ({g}, {n}), cell {n} of home {g}")
                } else if n <= before {
                    let after = n - size + 1;
                    format!("pair ({g}, {n}), {after} past the last cell of home {g}")
                } else {
                    format!("pair ({g}, {n}), {before} before the first cell of home {g}")
                }
            }
        }
    }
}
