//! From a file's bytes to a routine: refusals 1 to 6 and 10.

use std::cmp::Ordering;

use crate::refusal::{Due, Fall, Needed, Reason, Refusal};
use crate::routine::Routine;
use crate::rows::{
    Command, Expr, Expression, Flaw, HomeRow, Scope, Section, StartValue, Type, MOST_CELLS,
};

/// Reads a well-formed routine, or says why the file is none.
pub fn read(file: &[u8]) -> Result<Routine, Refusal> {
    let mut routine = read_rows(file)?;
    let first = judge(&mut routine).next();
    first.map_or(Ok(routine), Err)
}

/// All that a file of whole and good rows is refused for, the refusal that
/// [`read`] gives first; none of a file that earns one of 1 to 4.
pub fn earned(file: &[u8]) -> Vec<Refusal> {
    let rows = read_rows(file);
    rows.map_or_else(|_| Vec::new(), |mut routine| judge(&mut routine).collect())
}

/// The first refusal of each check on the rows together, in the order in
/// which one is given.
fn judge(routine: &mut Routine) -> impl Iterator<Item = Refusal> {
    let checks = [
        check_cells(routine),
        check_rising(routine),
        check_shapes(routine),
        check_values(routine),
    ];
    checks.into_iter().filter_map(Result::err)
}

/// A place in the file, moving front to back.
struct Cursor<'a> {
    file: &'a [u8],
    place: usize,
}

impl Cursor<'_> {
    fn take<const N: usize>(&mut self, section: Section, due: Due) -> Result<[u8; N], Refusal> {
        match self.file[self.place..].first_chunk::<N>() {
            Some(bytes) => {
                self.place += N;
                Ok(*bytes)
            }
            None => Err(Refusal::new(Reason::CutShort(section, due), self.place)),
        }
    }

    fn count(&mut self, section: Section) -> Result<usize, Refusal> {
        let place = self.place;
        let count = u16::from_le_bytes(self.take(section, Due::Count)?);
        if count > section.limit() {
            return Err(Refusal::new(Reason::OverLimit(section, count), place));
        }
        if section == Section::Commands && count == 0 {
            return Err(Refusal::new(Reason::NoCommands, place));
        }
        Ok(usize::from(count))
    }

    /// A section's count and rows. `decode` is given a row's bytes and the
    /// number of rows before it.
    fn rows<const N: usize, T>(
        &mut self,
        section: Section,
        decode: impl Fn([u8; N], usize) -> Result<T, Flaw>,
    ) -> Result<Vec<T>, Refusal> {
        let count = self.count(section)?;
        let mut rows = Vec::with_capacity(count);
        for index in 0..count {
            let place = self.place;
            let bytes = self.take(section, Due::Row)?;
            let row = decode(bytes, index)
                .map_err(|flaw| Refusal::new(Reason::BadRow(section, flaw), place))?;
            rows.push(row);
        }
        Ok(rows)
    }
}

/// The five sections, each row judged by itself: refusals 1 to 4.
fn read_rows(file: &[u8]) -> Result<Routine, Refusal> {
    let mut cursor = Cursor { file, place: 0 };
    let mut starts = [0; 5];
    let mut scope = Scope {
        types: 0,
        homes: 0,
        expressions: 0,
        commands: 0,
    };

    let targets = cursor.rows(Section::Types, |bytes, types| {
        let row = Type::decode(bytes);
        row.check_range(Scope { types, ..scope }).map(|()| row)
    })?;
    scope.types = targets.len();

    starts[1] = cursor.place;
    let homes = cursor.rows(Section::Homes, |bytes, _| {
        let row = HomeRow::decode(bytes);
        row.check_range(scope).map(|()| row)
    })?;
    scope.homes = homes.len();

    starts[2] = cursor.place;
    let expressions = cursor.rows(Section::Expressions, |bytes, expressions| {
        let row = Expression::decode(bytes)?;
        row.check_range(Scope {
            expressions,
            ..scope
        })
        .map(|()| row)
    })?;
    scope.expressions = expressions.len();

    starts[3] = cursor.place;
    let commands = cursor.rows(Section::Commands, |bytes, commands| {
        let row = Command::decode(bytes)?;
        row.check_range(Scope { commands, ..scope }).map(|()| row)
    })?;

    starts[4] = cursor.place;
    let start_values = if cursor.place < file.len() {
        let rows = cursor.rows(Section::Values, |bytes, _| {
            let row = StartValue::decode(bytes);
            row.check_range(&homes).map(|()| row)
        })?;
        Some(rows)
    } else {
        None
    };

    if cursor.place < file.len() {
        return Err(Refusal::new(Reason::SpareBytes, cursor.place));
    }
    Ok(Routine {
        targets,
        homes,
        expressions,
        commands,
        start_values,
        types_of: Vec::new(),
        starts,
    })
}

/// Refusal 5.
fn check_cells(routine: &Routine) -> Result<(), Refusal> {
    let mut cells = 0;
    for (home, row) in routine.homes() {
        cells += usize::from(row.size);
        if cells > MOST_CELLS {
            return Err(Refusal::new(Reason::TooManyCells, routine.home_place(home)));
        }
    }
    Ok(())
}

/// Refusal 10.
fn check_rising(routine: &Routine) -> Result<(), Refusal> {
    let later = routine.start_values().skip(1);
    for ((_, before), (start, row)) in routine.start_values().zip(later) {
        let fall = match row.position().cmp(&before.position()) {
            Ordering::Greater => continue,
            Ordering::Equal => Fall::SameCell,
            Ordering::Less if row.home == before.home => Fall::LowerCell,
            Ordering::Less => Fall::LowerHome,
        };
        let place = routine.start_place(start);
        return Err(Refusal::new(Reason::NotRising(fall), place));
    }
    Ok(())
}

/// Refusal 6 over expressions and commands; it gives each expression its type
/// on the way.
fn check_shapes(routine: &mut Routine) -> Result<(), Refusal> {
    routine.types_of = Vec::with_capacity(routine.expressions.len());
    for row in 0..routine.expressions.len() {
        let e = Expr(row as u16);
        let type_of = expression_type(routine, routine.expressions[row]).map_err(|needed| {
            Refusal::new(
                Reason::Shape(Section::Expressions, needed),
                routine.expression_place(e),
            )
        })?;
        routine.types_of.push(type_of);
    }
    for (c, command) in routine.commands() {
        check_command(routine, command).map_err(|needed| {
            Refusal::new(
                Reason::Shape(Section::Commands, needed),
                routine.command_place(c),
            )
        })?;
    }
    Ok(())
}

fn int(routine: &Routine, e: Expr) -> Result<(), Needed> {
    if routine.type_of(e).is_int() {
        Ok(())
    } else {
        Err(Needed::Int)
    }
}

/// The target of an operand that must be a reference.
fn reference(routine: &Routine, e: Expr) -> Result<Type, Needed> {
    routine.target(routine.type_of(e)).ok_or(Needed::Reference)
}

/// The type of an expression whose operands' types are known.
fn expression_type(routine: &Routine, expression: Expression) -> Result<Type, Needed> {
    match expression {
        Expression::Literal(_) => Ok(Type::INT),
        Expression::Home(home) => Ok(routine.home(home).of),
        Expression::Cast { to, .. } => Ok(to),
        Expression::Null(of) => Ok(of),
        Expression::Sum { pointer, offset } => {
            reference(routine, pointer)?;
            int(routine, offset)?;
            Ok(routine.type_of(pointer))
        }
        Expression::Read { pointer } => reference(routine, pointer),
        Expression::Operation(_, a, b) => {
            int(routine, a)?;
            int(routine, b)?;
            Ok(Type::INT)
        }
    }
}

/// The value of a store has any shape; its conversion is a matter of kinds.
fn check_command(routine: &Routine, command: Command) -> Result<(), Needed> {
    match command {
        Command::Skip | Command::Then(..) => Ok(()),
        Command::Store { pointer, .. } => reference(routine, pointer).map(|_| ()),
        Command::If { condition, .. } | Command::While { condition, .. } => int(routine, condition),
    }
}

/// Refusal 6 over start values.
fn check_values(routine: &Routine) -> Result<(), Refusal> {
    for (start, row) in routine.start_values() {
        if !routine.element(routine.home(row.home)).is_int() {
            let reason = Reason::Shape(Section::Values, Needed::Int);
            return Err(Refusal::new(reason, routine.start_place(start)));
        }
    }
    Ok(())
}
