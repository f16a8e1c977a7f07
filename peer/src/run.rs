//! The interpreter: a routine under a marking, with fuel, over lent memory.
//!
//! It follows the rules for any marking, so it has the outcome *stuck*; a run
//! of an acceptable marking never ends so.

use std::fmt;

use crate::kind::{Kind, Marking};
use crate::memory::{cell_index, write_start, Layout};
use crate::refusal::{Lent, Reason, Refusal};
use crate::routine::Routine;
use crate::rows::{Cmd, Command, Expr, Expression, Home, Operator, Type};
use crate::value::Value;

/// The checks. Check 2 is made by an access or by a conversion to SAFE.
#[derive(Clone, Copy, Debug, PartialEq, Eq, Hash)]
pub enum Check {
    Null,
    AccessBounds,
    ConversionBounds,
    NullHome,
    Divisor,
}

impl Check {
    pub fn number(self) -> u8 {
        match self {
            Check::Null => 1,
            Check::AccessBounds | Check::ConversionBounds => 2,
            Check::NullHome => 3,
            Check::Divisor => 4,
        }
    }
}

#[derive(Clone, Copy, Debug, PartialEq, Eq, Hash)]
pub enum Outcome {
    Done,
    Fuel,
    Check(Check),
    Stuck,
}

impl fmt::Display for Outcome {
    fn fmt(&self, f: &mut fmt::Formatter<'_>) -> fmt::Result {
        match self {
            Outcome::Done => f.write_str("done"),
            Outcome::Fuel => f.write_str("fuel"),
            Outcome::Check(check) => write!(f, "check-{}", check.number()),
            Outcome::Stuck => f.write_str("stuck"),
        }
    }
}

/// How a run ended, at which row's place (0 when done), and the units spent.
#[derive(Clone, Copy, Debug, PartialEq, Eq)]
pub struct Answer {
    pub outcome: Outcome,
    pub place: usize,
    pub units: u32,
}

impl fmt::Display for Answer {
    fn fmt(&self, f: &mut fmt::Formatter<'_>) -> fmt::Result {
        write!(f, "{} {} {}", self.outcome, self.place, self.units)
    }
}

/// Is shown the memory at the start of a run and after every store, and the
/// pointer that fails a check.
pub trait Watch {
    fn started(&mut self, _cells: &[u64]) {}
    /// The cell at this index has just been stored to.
    fn stored(&mut self, _cells: &[u64], _index: usize) {}
    /// The check that ends the run is on this value.
    fn failed(&mut self, _value: Value) {}
}

/// Watches nothing.
impl Watch for () {}

/// Runs the body with this fuel over lent memory: refusal 9 if it is too short.
pub fn run(
    routine: &Routine,
    marking: &Marking,
    fuel: u32,
    memory: &mut [u64],
) -> Result<Answer, Refusal> {
    run_watched(routine, marking, fuel, memory, &mut ())
}

/// A run that shows its memory to a watch.
pub fn run_watched<W: Watch>(
    routine: &Routine,
    marking: &Marking,
    fuel: u32,
    memory: &mut [u64],
    watch: &mut W,
) -> Result<Answer, Refusal> {
    let needed = routine.cells();
    let Some(cells) = memory.get_mut(..needed) else {
        return Err(Refusal::new(Reason::TooShort(Lent::Memory), needed));
    };
    let layout = Layout::new(routine);
    write_start(routine, marking, &layout, cells);
    watch.started(cells);

    let mut machine = Machine {
        routine,
        marking,
        layout,
        cells,
        fuel,
        watch,
    };
    let stop = match machine.execute(routine.body()) {
        Ok(()) => Stop {
            outcome: Outcome::Done,
            place: 0,
        },
        Err(stop) => stop,
    };
    Ok(Answer {
        outcome: stop.outcome,
        place: stop.place,
        units: fuel - machine.fuel,
    })
}

/// Why a run goes no further, and the place of the row that says so.
struct Stop {
    outcome: Outcome,
    place: usize,
}

/// What ends an evaluation inside a row, which then adds its own place.
struct Halt(Outcome);

impl Halt {
    const STUCK: Halt = Halt(Outcome::Stuck);

    fn check(check: Check) -> Halt {
        Halt(Outcome::Check(check))
    }

    fn at(self, place: usize) -> Stop {
        Stop {
            outcome: self.0,
            place,
        }
    }
}

struct Machine<'a, W> {
    routine: &'a Routine,
    marking: &'a Marking,
    layout: Layout,
    cells: &'a mut [u64],
    fuel: u32,
    watch: &'a mut W,
}

impl<W: Watch> Machine<'_, W> {
    /// Pays one unit for entering the row at this place.
    fn enter(&mut self, place: usize) -> Result<(), Stop> {
        match self.fuel.checked_sub(1) {
            Some(left) => {
                self.fuel = left;
                Ok(())
            }
            None => Err(Halt(Outcome::Fuel).at(place)),
        }
    }

    /// Ends the run at the row whose own rule has halted on this value.
    fn stop(&mut self, halt: Halt, value: Value, place: usize) -> Stop {
        if matches!(halt.0, Outcome::Check(_)) {
            self.watch.failed(value);
        }
        halt.at(place)
    }

    fn evaluate(&mut self, e: Expr) -> Result<Value, Stop> {
        let place = self.routine.expression_place(e);
        self.enter(place)?;
        match self.routine.expression(e) {
            Expression::Literal(n) => Ok(Value::Number(n)),
            Expression::Home(home) => Ok(self.home_value(home)),
            Expression::Cast { value, to } => {
                let value = self.evaluate(value)?;
                self.convert(value, to)
                    .map_err(|halt| self.stop(halt, value, place))
            }
            Expression::Null(of) => Ok(match self.marking.kind(of) {
                Some(Kind::Safe) | None => Value::Number(0),
                Some(Kind::Seq | Kind::Dynamic) => Value::NULL_PAIR,
            }),
            Expression::Sum { pointer, offset } => {
                let pointer = self.evaluate(pointer)?;
                let offset = self.evaluate(offset)?;
                match (pointer, offset) {
                    (Value::Pair(home, n), Value::Number(m)) => {
                        Ok(Value::Pair(home, n.wrapping_add(m)))
                    }
                    _ => Err(Halt::STUCK.at(place)),
                }
            }
            Expression::Read { pointer } => {
                let address = self.evaluate(pointer)?;
                let of = self.routine.type_of(pointer);
                self.read(of, address)
                    .map_err(|halt| self.stop(halt, address, place))
            }
            Expression::Operation(operator, a, b) => {
                let a = self.evaluate(a)?;
                let b = self.evaluate(b)?;
                match (a, b) {
                    (Value::Number(a), Value::Number(b)) => operate(operator, a, b)
                        .map(Value::Number)
                        .ok_or_else(|| Halt::check(Check::Divisor).at(place)),
                    _ => Err(Halt::STUCK.at(place)),
                }
            }
        }
    }

    fn execute(&mut self, c: Cmd) -> Result<(), Stop> {
        let place = self.routine.command_place(c);
        self.enter(place)?;
        match self.routine.command(c) {
            Command::Skip => Ok(()),
            Command::Then(first, second) => {
                self.execute(first)?;
                self.execute(second)
            }
            Command::Store { pointer, value } => {
                let of = self.routine.type_of(pointer);
                let target = self.evaluate(pointer)?;
                let index = self
                    .access(of, target)
                    .map_err(|halt| self.stop(halt, target, place))?;
                let value = self.evaluate(value)?;
                let stored = self
                    .stored(of, value)
                    .map_err(|halt| self.stop(halt, value, place))?;
                self.cells[index] = stored.to_entry();
                self.watch.stored(self.cells, index);
                Ok(())
            }
            Command::If {
                condition,
                then,
                otherwise,
            } => {
                if self.holds(condition, place)? {
                    self.execute(then)
                } else {
                    self.execute(otherwise)
                }
            }
            Command::While { condition, body } => {
                while self.holds(condition, place)? {
                    self.execute(body)?;
                    self.enter(place)?;
                }
                Ok(())
            }
        }
    }

    /// Is the condition of the command at this place nonzero?
    fn holds(&mut self, condition: Expr, place: usize) -> Result<bool, Stop> {
        match self.evaluate(condition)? {
            Value::Number(n) => Ok(n != 0),
            Value::Pair(..) => Err(Halt::STUCK.at(place)),
        }
    }

    fn home_value(&self, home: Home) -> Value {
        match self.marking.kind(self.routine.home(home).of) {
            Some(Kind::Safe) => Value::Number(self.layout.start(home)),
            _ => Value::Pair(home, 0),
        }
    }

    fn convert(&self, value: Value, to: Type) -> Result<Value, Halt> {
        match self.marking.kind(to) {
            None => Ok(Value::Number(self.number(value))),
            Some(Kind::Safe) => self
                .to_safe(value)
                .ok_or_else(|| Halt::check(Check::ConversionBounds)),
            Some(Kind::Seq | Kind::Dynamic) => Ok(match value {
                Value::Number(n) => Value::Pair(Home::NULL, n),
                pair => pair,
            }),
        }
    }

    /// Conversion to int.
    fn number(&self, value: Value) -> u32 {
        match value {
            Value::Number(n) => n,
            Value::Pair(home, n) => self.layout.address(home, n),
        }
    }

    /// Conversion to SAFE, none if the pair is out of bounds.
    fn to_safe(&self, value: Value) -> Option<Value> {
        match value {
            Value::Pair(home, n) if n >= self.layout.size(home) => None,
            value => Some(Value::Number(self.number(value))),
        }
    }

    /// The checks of an access through a pointer of this type, and the index
    /// of the cell it reaches.
    fn access(&self, of: Type, pointer: Value) -> Result<usize, Halt> {
        let address = match (self.marking.kind(of), pointer) {
            (Some(Kind::Safe), Value::Number(address)) => non_null(address)?,
            (Some(Kind::Seq), pointer) => match self.to_safe(pointer) {
                Some(safe) => non_null(self.number(safe))?,
                None => return Err(Halt::check(Check::AccessBounds)),
            },
            (Some(Kind::Dynamic), Value::Pair(home, n)) => {
                if home == Home::NULL {
                    return Err(Halt::check(Check::NullHome));
                }
                if n >= self.layout.size(home) {
                    return Err(Halt::check(Check::AccessBounds));
                }
                self.layout.address(home, n)
            }
            _ => return Err(Halt::STUCK),
        };
        let index = cell_index(address);
        if index < self.cells.len() {
            Ok(index)
        } else {
            Err(Halt::STUCK)
        }
    }

    fn read(&self, of: Type, pointer: Value) -> Result<Value, Halt> {
        let index = self.access(of, pointer)?;
        let value = Value::from_entry(self.cells[index]).ok_or(Halt::STUCK)?;
        Ok(if self.dynamic_int(of) {
            Value::Number(self.number(value))
        } else {
            value
        })
    }

    /// What a store through a pointer of this type puts into the cell.
    fn stored(&self, of: Type, value: Value) -> Result<Value, Halt> {
        let target = self.routine.target(of).unwrap_or(Type::INT);
        let value = self.convert(value, target)?;
        Ok(if self.dynamic_int(of) {
            Value::Pair(Home::NULL, self.number(value))
        } else {
            value
        })
    }

    /// A DYNAMIC reference to int: its cells hold pairs, its reads give numbers.
    fn dynamic_int(&self, of: Type) -> bool {
        self.marking.kind(of) == Some(Kind::Dynamic) && self.routine.target(of) == Some(Type::INT)
    }
}

fn non_null(address: u32) -> Result<u32, Halt> {
    if address == 0 {
        Err(Halt::check(Check::Null))
    } else {
        Ok(address)
    }
}

/// Unsigned arithmetic mod 2^32; none where the divisor is zero.
fn operate(operator: Operator, a: u32, b: u32) -> Option<u32> {
    Some(match operator {
        Operator::Add => a.wrapping_add(b),
        Operator::Subtract => a.wrapping_sub(b),
        Operator::Multiply => a.wrapping_mul(b),
        Operator::Divide => return a.checked_div(b),
        Operator::Remainder => return a.checked_rem(b),
        Operator::Equal => u32::from(a == b),
        Operator::Less => u32::from(a < b),
        Operator::And => a & b,
        Operator::ShiftRight => a.checked_shr(b).unwrap_or(0),
    })
}
