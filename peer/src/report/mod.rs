//! What a stream of requests reaches: refusals, outcomes, checks, kinds.

mod lines;

use std::collections::HashMap;
use std::fmt;

use crate::infer::infer;
use crate::kind::{check, Marking};
use crate::probe::{Call, Request};
use crate::reader::{earned, read};
use crate::refusal::{Lent, Reason, Refusal};
use crate::routine::Routine;
use crate::rows::{Command, Expression, Section, Type, LONGEST_FILE};
use crate::run::{run, Answer, Outcome};

use lines::Row;

/// The most fuel of a run that is made to be held against another.
const TRIAL: u32 = 20_000;

/// Counted lines, all of which can be reached.
pub struct Report {
    lines: Vec<(String, u64)>,
    index: HashMap<String, usize>,
}

impl Default for Report {
    fn default() -> Self {
        Report::new()
    }
}

impl Report {
    /// Every line there is, at zero.
    pub fn new() -> Report {
        let mut report = Report {
            lines: Vec::new(),
            index: HashMap::new(),
        };
        for line in lines::all() {
            report.add(line, 0);
        }
        report
    }

    fn add(&mut self, line: String, count: u64) {
        match self.index.get(&line) {
            Some(&index) => self.lines[index].1 += count,
            None => {
                self.index.insert(line.clone(), self.lines.len());
                self.lines.push((line, count));
            }
        }
    }

    pub fn lines(&self) -> &[(String, u64)] {
        &self.lines
    }

    /// The lines that nothing has reached.
    pub fn missed(&self) -> impl Iterator<Item = &str> {
        self.lines
            .iter()
            .filter(|(_, count)| *count == 0)
            .map(|(line, _)| line.as_str())
    }

    /// Counts what this request reaches.
    pub fn count(&mut self, request: &Request) {
        let letter = request.call.letter();
        self.add(lines::request(letter), 1);
        if request.file.len() >= LONGEST_FILE {
            let longer = request.file.len() > LONGEST_FILE;
            self.add(lines::long_file(longer), 1);
        }
        let answer = read(&request.file).and_then(|routine| {
            self.count_section(&routine);
            self.count_call(&routine, &request.call)
        });
        if let Err(refusal) = answer {
            self.add(lines::refused(letter, refusal.number()), 1);
            self.add(lines::reason(&refusal, &request.file), 1);
            self.count_clashes(&request.file);
        }
    }

    /// The refusals that a file earns and is not given.
    fn count_clashes(&mut self, file: &[u8]) {
        if let Some((given, others)) = earned(file).split_first() {
            for other in others {
                self.add(lines::clash(given, other), 1);
            }
        }
    }

    /// The fifth section of a well-formed file.
    fn count_section(&mut self, routine: &Routine) {
        self.add(lines::section(routine.has_values()), 1);
        let count = routine.start_values().count();
        if routine.has_values() && (count == 0 || count == usize::from(Section::Values.limit())) {
            self.add(lines::values(count), 1);
        }
    }

    fn count_call(&mut self, routine: &Routine, call: &Call) -> Result<(), Refusal> {
        match call {
            Call::Read => self.add(lines::outcome("read"), 1),
            Call::Infer { lent } => {
                let needed = routine.type_count();
                if lent.len() < needed {
                    return Err(Refusal::new(Reason::TooShort(Lent::Marking), needed));
                }
                self.add(lines::outcome("marked"), 1);
                self.add(lines::lent(Lent::Marking, lent.len() > needed), 1);
                self.count_kinds("inferred", &infer(routine));
            }
            Call::Check { marking } => {
                let marking = Marking::from_bytes(routine, marking)?;
                check(routine, &marking)?;
                self.add(lines::outcome("accepted"), 1);
                self.count_kinds("accepted", &marking);
            }
            Call::Run {
                marking,
                fuel,
                memory,
            } => {
                let marking = Marking::from_bytes(routine, marking)?;
                check(routine, &marking)?;
                let answer = run(routine, &marking, *fuel, &mut memory.clone())?;
                let surplus = memory.len() > routine.cells();
                self.add(lines::lent(Lent::Memory, surplus), 1);
                self.count_kinds("run", &marking);
                self.count_rows(routine, &marking);
                self.count_values(routine, &marking, *fuel);
                self.count_outcome(routine, &marking, answer);
            }
        }
        Ok(())
    }

    fn count_kinds(&mut self, when: &str, marking: &Marking) {
        for &kind in marking.kinds() {
            self.add(lines::kind(when, kind), 1);
        }
    }

    /// The conversions and accesses of an accepted file.
    fn count_rows(&mut self, routine: &Routine, marking: &Marking) {
        let kind = |t: Type| marking.kind(t);
        for (_, expression) in routine.expressions() {
            match expression {
                Expression::Cast { value, to } => {
                    let line = lines::conversion("cast", kind(routine.type_of(value)), kind(to));
                    self.add(line, 1);
                }
                Expression::Read { pointer } => {
                    let of = routine.type_of(pointer);
                    let target = routine.target(of).and_then(kind);
                    self.add(lines::access("read", kind(of), target), 1);
                }
                _ => {}
            }
        }
        for (_, command) in routine.commands() {
            if let Command::Store { pointer, value } = command {
                let of = routine.type_of(pointer);
                let target = routine.target(of).and_then(kind);
                self.add(lines::access("store", kind(of), target), 1);
                let line = lines::conversion("store", kind(routine.type_of(value)), target);
                self.add(line, 1);
            }
        }
    }

    /// The start values of a run, and whether it would end otherwise without
    /// them.
    fn count_values(&mut self, routine: &Routine, marking: &Marking, fuel: u32) {
        for (_, row) in routine.start_values() {
            let home = marking.kind(routine.home(row.home).of);
            self.add(lines::value_in(home), 1);
        }
        if routine.start_values().next().is_none() {
            return;
        }
        if fuel == 0 {
            self.add(lines::VALUES_AND_NO_FUEL.to_string(), 1);
        }
        let without = Routine {
            start_values: None,
            ..routine.clone()
        };
        // Without them a run may never end.
        let fuel = fuel.min(TRIAL);
        let answer = |routine: &Routine| run(routine, marking, fuel, &mut vec![0; routine.cells()]);
        if answer(routine) != answer(&without) {
            self.add(lines::VALUES_MATTER.to_string(), 1);
        }
    }

    fn count_outcome(&mut self, routine: &Routine, marking: &Marking, answer: Answer) {
        let row = match routine.row_at(answer.place) {
            Some((Section::Expressions, row)) => Row::Expression(routine.expressions[row]),
            Some((Section::Commands, row)) => Row::Command(routine.commands[row]),
            _ => {
                self.add(lines::outcome(&answer.outcome.to_string()), 1);
                return;
            }
        };
        let through = match row {
            Row::Expression(Expression::Read { pointer })
            | Row::Command(Command::Store { pointer, .. }) => {
                marking.kind(routine.type_of(pointer))
            }
            _ => None,
        };
        let line = match answer.outcome {
            Outcome::Fuel => lines::fuel(row.name()),
            Outcome::Check(check) => lines::check(check, row.symbol(), through),
            other => lines::outcome(&other.to_string()),
        };
        self.add(line, 1);
    }
}

impl fmt::Display for Report {
    fn fmt(&self, f: &mut fmt::Formatter<'_>) -> fmt::Result {
        for (line, count) in &self.lines {
            writeln!(f, "{count:>9}  {line}")?;
        }
        Ok(())
    }
}
