//! Files made from well-formed ones that are refused, nearly all of them.

use super::clash::clashing;
use super::values::{fall, int_cells, reference_cell, some_values, wrong_cell, wrong_home};
use crate::builder::Builder;
use crate::random::Random;
use crate::reader::read;
use crate::routine::Routine;
use crate::rows::{Command, Expr, Expression, Section, LARGEST_HOME};

/// Damages a file in one of the ways below. A file that is not well-formed
/// is only cut or lengthened.
pub fn damaged(random: &mut Random, mut file: Vec<u8>) -> Vec<u8> {
    let Ok(routine) = read(&file) else {
        let place = random.index(file.len() + 1);
        file.truncate(place);
        return file;
    };
    match random.below(22) {
        0..=1 => cut(random, &mut file, &routine),
        2 => {
            let spare = random.between(1, 9) as usize;
            file.extend(random.bytes(spare));
        }
        3 => wrong_count(random, &mut file, &routine),
        4 => many_cells(random, &mut file, &routine),
        5 => wrong_byte(random, &mut file),
        6..=7 => wrong_shape(random, &mut file, &routine),
        8..=9 => return wrong_values(random, &routine),
        10 => cut_values(random, &mut file, &routine),
        11..=12 => return clashing(random, &routine),
        _ => {
            let fields = if random.percent(90) { 1 } else { 2 };
            for _ in 0..fields {
                wrong_field(random, &mut file, &routine);
            }
        }
    }
    file
}

/// Cuts a file anywhere, or near the start of a section.
fn cut(random: &mut Random, file: &mut Vec<u8>, routine: &Routine) {
    let place = if random.percent(50) {
        random.index(file.len() + 1)
    } else {
        random.pick(&routine.starts()) + random.index(4)
    };
    file.truncate(place);
}

/// Leaves the first bytes of a fifth section, or begins one where there is
/// none.
fn cut_values(random: &mut Random, file: &mut Vec<u8>, routine: &Routine) {
    let start = routine.starts()[Section::Values as usize];
    if !routine.has_values() {
        file.extend(random.pick(&[1_u16, 2, 256, 257]).to_le_bytes());
        file.resize(file.len() + Section::Values.row_bytes(), 0);
    }
    let left = if random.percent(30) {
        1
    } else {
        random.between(1, (file.len() - start) as u64 - 1) as usize
    };
    file.truncate(start + left);
}

/// A fifth section with a row that it must not have.
fn wrong_values(random: &mut Random, routine: &Routine) -> Vec<u8> {
    let mut b = Builder::from(routine);
    let mut rows = b.start_values.take().unwrap_or_default();
    if rows.is_empty() {
        let count = random.between(1, 4) as usize;
        rows = some_values(random, &int_cells(&b), count);
    }
    match random.below(7) {
        0 => wrong_home(random, &b, &mut rows),
        1 => wrong_cell(random, &b, &mut rows),
        2..=4 => {
            let falls = random.pick(&[1, 1, 2]);
            for _ in 0..falls {
                fall(random, &mut rows);
            }
        }
        _ => reference_cell(random, &b, &mut rows),
    }
    b.start_values = Some(rows);
    b.file()
}

fn wrong_byte(random: &mut Random, file: &mut [u8]) {
    if !file.is_empty() {
        let index = random.index(file.len());
        file[index] = random.draw() as u8;
    }
}

fn put(file: &mut [u8], place: usize, number: u16) {
    if let Some(field) = file[place..].first_chunk_mut() {
        *field = number.to_le_bytes();
    }
}

fn wrong_count(random: &mut Random, file: &mut Vec<u8>, routine: &Routine) {
    let section = random.pick(&Section::ALL);
    if section == Section::Values && !routine.has_values() {
        file.extend([0, 0]);
    }
    let place = routine.starts()[section as usize];
    let rows = rows(routine, section) as u16;
    let limit = section.limit();
    let count = random.pick(&[
        0,
        limit,
        limit + 1,
        u16::MAX,
        rows + 1,
        rows.saturating_sub(1),
    ]);
    put(file, place, count);
}

/// Homes so large that only many of them, or few, pass the limit.
fn many_cells(random: &mut Random, file: &mut [u8], routine: &Routine) {
    for (home, _) in routine.homes() {
        let size = random.pick(&[LARGEST_HOME, LARGEST_HOME, LARGEST_HOME - 1, 1]);
        put(file, routine.home_place(home) + 2, size);
    }
}

/// An operand that is an int becomes a reference, or the reverse.
fn wrong_shape(random: &mut Random, file: &mut [u8], routine: &Routine) {
    // The operands that must be of the shape they are, and the rows before.
    let mut operands: Vec<(usize, Expr, u16)> = Vec::new();
    for (e, expression) in routine.expressions() {
        let a = routine.expression_place(e) + 1;
        match expression {
            Expression::Read { pointer } => operands.push((a, pointer, e.0)),
            Expression::Sum {
                pointer: x,
                offset: y,
            }
            | Expression::Operation(_, x, y) => operands.extend([(a, x, e.0), (a + 2, y, e.0)]),
            _ => {}
        }
    }
    let all = rows(routine, Section::Expressions) as u16;
    for (c, command) in routine.commands() {
        let a = routine.command_place(c) + 1;
        match command {
            Command::Store { pointer: x, .. }
            | Command::If { condition: x, .. }
            | Command::While { condition: x, .. } => operands.push((a, x, all)),
            _ => {}
        }
    }
    if operands.is_empty() {
        return;
    }
    let (place, operand, before) = random.pick(&operands);
    let is_int = |e: Expr| routine.type_of(e).is_int();
    let others: Vec<u16> = (0..before)
        .filter(|&e| is_int(Expr(e)) != is_int(operand))
        .collect();
    if !others.is_empty() {
        put(file, place, random.pick(&others));
    }
}

fn rows(routine: &Routine, section: Section) -> usize {
    match section {
        Section::Types => routine.type_count(),
        Section::Homes => routine.homes().count(),
        Section::Expressions => routine.expressions().count(),
        Section::Commands => routine.commands().count(),
        Section::Values => routine.start_values().count(),
    }
}

/// A row with a number that is often just outside its range, or with another
/// tag.
fn wrong_field(random: &mut Random, file: &mut [u8], routine: &Routine) {
    let section = random.pick(&[
        Section::Types,
        Section::Homes,
        Section::Expressions,
        Section::Expressions,
        Section::Expressions,
        Section::Commands,
        Section::Commands,
        Section::Commands,
        Section::Values,
    ]);
    let count = rows(routine, section);
    if count == 0 {
        return;
    }
    let row = random.index(count);
    let place = routine.starts()[section as usize] + 2 + row * section.row_bytes();
    let tagged = section.row_bytes() % 2;
    if tagged == 1 && random.percent(15) {
        file[place] = random.pick(&[0, 1, 2, 3, 4, 5, 6, 7, 15, 16, 19, 24, 25, 255]);
        return;
    }
    let field = place + tagged + 2 * random.index(section.row_bytes() / 2);
    let any = random.draw() as u16;
    let number = random.pick(&[
        0,
        0,
        0,
        1,
        row as u16,
        row as u16 + 1,
        routine.type_count() as u16,
        routine.type_count() as u16 + 1,
        rows(routine, Section::Homes) as u16,
        rows(routine, Section::Homes) as u16 + 1,
        rows(routine, Section::Expressions) as u16,
        LARGEST_HOME,
        LARGEST_HOME + 1,
        256,
        u16::MAX,
        any,
    ]);
    put(file, field, number);
}
