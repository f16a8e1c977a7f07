//! Start values by chance: those of well-formed routines, and rows that a
//! section must not have.

use super::weave::number;
use crate::builder::Builder;
use crate::random::Random;
use crate::rows::{Home, Section, StartValue, Type};

/// The most start values that a routine may have.
pub const MOST_VALUES: usize = Section::Values.limit() as usize;

/// The start values of a routine with these homes. Half of the routines have
/// not even a section for them.
pub fn values(random: &mut Random, b: &Builder) -> Option<Vec<StartValue>> {
    if random.percent(50) {
        return None;
    }
    let mut cells = int_cells(b);
    let count = match random.below(10) {
        0 => 0,
        1 => cells.len(),
        _ => random.between(1, 4) as usize,
    };
    if random.percent(50) {
        // To these a pointer needs no sum.
        cells.retain(|&(_, cell)| cell == 0);
    }
    Some(some_values(random, &cells, count))
}

/// Every cell of int, rising by home, then cell.
pub fn int_cells(b: &Builder) -> Vec<(Home, u16)> {
    cells(b, Type::is_int)
}

fn cells(b: &Builder, fits: impl Fn(Type) -> bool) -> Vec<(Home, u16)> {
    let homes = (1..).map(Home).zip(&b.homes);
    homes
        .filter(|(_, row)| fits(b.targets[usize::from(row.of.0) - 1]))
        .flat_map(|(home, row)| (0..row.size).map(move |cell| (home, cell)))
        .collect()
}

/// Values for so many of these cells, or for as many as there can be, in the
/// order of the cells.
pub fn some_values(random: &mut Random, cells: &[(Home, u16)], count: usize) -> Vec<StartValue> {
    let mut wanted = count.min(cells.len()).min(MOST_VALUES);
    let mut rows = Vec::with_capacity(wanted);
    for (index, &(home, cell)) in cells.iter().enumerate() {
        if random.index(cells.len() - index) < wanted {
            wanted -= 1;
            let value = number(random);
            rows.push(StartValue { home, cell, value });
        }
    }
    rows
}

/// A row that does not rise: one that stands there twice, or two exchanged.
pub fn fall(random: &mut Random, rows: &mut Vec<StartValue>) {
    if rows.is_empty() {
        return;
    }
    let (one, other) = (random.index(rows.len()), random.index(rows.len()));
    if one != other && random.percent(70) {
        rows.swap(one, other);
    } else {
        let mut again = rows[one];
        if random.percent(50) {
            again.value = number(random);
        }
        rows.insert(one + 1, again);
    }
}

/// A row for a cell of references, where it rises.
pub fn reference_cell(random: &mut Random, b: &Builder, rows: &mut Vec<StartValue>) {
    let cells = cells(b, |element| !element.is_int());
    if cells.is_empty() {
        return;
    }
    let (home, cell) = random.pick(&cells);
    let value = number(random);
    let index = rows.partition_point(|row| row.position() < (home, cell));
    rows.insert(index, StartValue { home, cell, value });
}

/// A row with a home that is none, or that its section does not have.
pub fn wrong_home(random: &mut Random, b: &Builder, rows: &mut Vec<StartValue>) {
    let homes = b.homes.len() as u16;
    let home = Home(random.pick(&[0, 0, homes + 1, homes + 1, homes + 2, u16::MAX]));
    if rows.is_empty() || random.percent(20) {
        let (cell, value) = (0, number(random));
        rows.push(StartValue { home, cell, value });
    } else {
        let row = random.index(rows.len());
        rows[row].home = home;
    }
}

/// A row with a cell at the size of its home, or past it.
pub fn wrong_cell(random: &mut Random, b: &Builder, rows: &mut [StartValue]) {
    if rows.is_empty() {
        return;
    }
    let row = random.index(rows.len());
    let size = b.homes[usize::from(rows[row].home.0) - 1].size;
    rows[row].cell = random.pick(&[size, size, size + 1, u16::MAX]);
}
