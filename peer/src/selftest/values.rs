//! Tests of start values: what a file is refused for, by a second reading of
//! its bytes, and what the values are to a run.

use super::{Tally, FUEL};
use crate::builder::Builder;
use crate::generate::acceptable;
use crate::infer::infer;
use crate::kind::{check, Kind, Marking};
use crate::kinds;
use crate::probe::Request;
use crate::random::Random;
use crate::reader::read;
use crate::routine::Routine;
use crate::rows::{Section, StartValue, LONGEST_FILE};
use crate::run::{run, Answer};

/// A well-formed file. True if it has start values.
pub fn test_file(
    tally: &mut Tally,
    index: u64,
    random: &mut Random,
    file: &[u8],
    routine: &Routine,
) -> bool {
    if routine.start_values().next().is_none() {
        return false;
    }
    match read(&file[..routine.starts()[4]]) {
        Ok(bare) => {
            tally.expect_equal(infer(routine), infer(&bare), || {
                format!("file {index}, its least marking without its values")
            });
            let marking = acceptable(random, routine);
            test_start(tally, index, file, routine, &bare, &marking);
        }
        Err(refusal) => tally.expect(false, || {
            format!("file {index} without its values: {refusal}")
        }),
    }
    test_stores(tally, index, random, routine);
    true
}

/// A file of any sort: how it is refused, and that it answers as before if it
/// stops after the commands.
pub fn test_request(tally: &mut Tally, index: u64, request: &Request) {
    let file = &request.file;
    if let Some(sections) = Sections::of(file) {
        let refused = read(file).err().map(|no| (no.number(), no.place));
        tally.expect_equal(refused, sections.refusal(), || {
            format!("request {index}, what its file is refused for")
        });
        if sections.fifth().is_empty() {
            test_empty_section(tally, index, request);
        }
    }
    if file.len() > LONGEST_FILE {
        let first = &file[..kinds::DECIDING_BYTES];
        tally.expect_equal(kinds::output(file), kinds::output(first), || {
            format!("request {index}, the first bytes of its file")
        });
    }
}

/// A file that stops after the commands answers as with a section of none.
fn test_empty_section(tally: &mut Tally, index: u64, request: &Request) {
    let mut longer = request.clone();
    longer.file.extend([0, 0]);
    tally.expect_equal(longer.answer(), request.answer(), || {
        format!("request {index}, with a section of no values")
    });
}

/// The starting memory is that of the file without its fifth section, and over
/// it the values as they stand in the file's bytes.
fn test_start(
    tally: &mut Tally,
    index: u64,
    file: &[u8],
    routine: &Routine,
    bare: &Routine,
    marking: &Marking,
) {
    let start = |routine: &Routine| {
        let mut memory = vec![0; routine.cells()];
        let answer = run(routine, marking, 0, &mut memory);
        (answer, memory)
    };
    let (answer, mut memory) = start(bare);
    for row in file[routine.starts()[4] + 2..].chunks_exact(8) {
        let number = |field| number_at(row, field).unwrap_or(0);
        let home = number(0) - 1;
        let before = routine.homes[..home]
            .iter()
            .map(|row| usize::from(row.size));
        let cell = before.sum::<usize>() + number(2);
        let dynamic = marking.kind(routine.homes[home].of) == Some(Kind::Dynamic);
        let halves = (number(6) << 16 | number(4)) as u64;
        memory[cell] = u64::from(dynamic) << 32 | halves;
    }
    tally.expect_equal(start(routine), (answer, memory), || {
        format!("file {index}, its starting memory")
    });
}

/// The most start values that are made stores.
const MOST_STORES: usize = 40;

/// A start value is what a store before the body would put there, and is had
/// without its units.
fn test_stores(tally: &mut Tally, index: u64, random: &mut Random, routine: &Routine) {
    let rows: Vec<StartValue> = routine.start_values().map(|(_, row)| row).collect();
    let many = |rows: usize| rows > 1024 - 4 * MOST_STORES;
    if rows.len() > MOST_STORES || many(routine.expressions.len()) || many(routine.commands.len()) {
        return;
    }
    let mut b = Builder::from(routine);
    b.start_values = None;
    let mut commands = Vec::new();
    for row in &rows {
        let home = b.at(row.home);
        let offset = b.literal(u32::from(row.cell));
        let pointer = b.sum(home, offset);
        let value = b.literal(row.value);
        commands.push(b.store(pointer, value));
    }
    commands.push(routine.body());
    b.sequence(&commands);
    let storing = match read(&b.file()) {
        Ok(storing) => storing,
        Err(refusal) => {
            tally.expect(false, || format!("file {index} with stores: {refusal}"));
            return;
        }
    };
    let marking = acceptable(random, &storing);
    tally.expect_equal(check(routine, &marking), Ok(()), || {
        format!("file {index}, a marking of its values as stores")
    });

    // A store and the `then` around it enter six rows; four of them are new
    // expressions of five bytes, before the commands.
    let units = 6 * rows.len() as u32;
    let [_, _, _, commands, _] = routine.starts();
    let moved = |answer: Answer| Answer {
        units: answer.units + units,
        place: match answer.place {
            place if place < commands => place,
            place => place + 20 * rows.len(),
        },
        ..answer
    };
    let mut cells = vec![0; routine.cells()];
    let answer = run(routine, &marking, FUEL, &mut cells).map(moved);
    let mut stored = vec![0; routine.cells()];
    let storing = run(&storing, &marking, FUEL + units, &mut stored);
    tally.expect_equal((storing, stored), (answer, cells), || {
        format!("file {index}, its values as stores")
    });
}

/// A file taken apart by its counts alone: all of the first four sections are
/// there.
struct Sections<'a> {
    file: &'a [u8],
    /// The places of the five counts, of which the last may not be there.
    starts: [usize; 5],
}

fn number_at(file: &[u8], place: usize) -> Option<usize> {
    let bytes = file.get(place..place + 2)?;
    Some(usize::from(bytes[0]) | usize::from(bytes[1]) << 8)
}

impl Sections<'_> {
    fn of(file: &[u8]) -> Option<Sections<'_>> {
        let mut starts = [0; 5];
        for index in 0..4 {
            let rows = number_at(file, starts[index])?;
            starts[index + 1] = starts[index] + 2 + rows * Section::ALL[index].row_bytes();
        }
        (starts[4] <= file.len()).then_some(Sections { file, starts })
    }

    fn fifth(&self) -> &[u8] {
        &self.file[self.starts[4]..]
    }

    /// A field of a row that is there, in bytes from the row's place.
    fn field(&self, place: usize, field: usize) -> usize {
        number_at(self.file, place + field).unwrap_or(0)
    }

    /// The place of a home's row, the homes counted from 1.
    fn home(&self, home: usize) -> usize {
        self.starts[1] + 2 + 4 * (home - 1)
    }

    /// The target of the home's type.
    fn target(&self, home: usize) -> usize {
        let of = self.field(self.home(home), 0);
        self.field(self.starts[0] + 2 + 2 * (of - 1), 0)
    }

    /// The number and place that the file is refused with, if the reader is
    /// right about the first four sections.
    fn refusal(&self) -> Option<(u8, usize)> {
        let four = read(&self.file[..self.starts[4]]).err();
        let four = four.map(|refusal| (refusal.number(), refusal.place));
        if matches!(four, Some((1..=4, _))) || self.fifth().is_empty() {
            return four;
        }
        let start = self.starts[4];
        let Some(count) = number_at(self.file, start) else {
            return Some((1, start));
        };
        if count > 256 {
            return Some((2, start));
        }
        let rows: Vec<usize> = (0..count).map(|row| start + 2 + 8 * row).collect();
        for &row in &rows {
            if row + 8 > self.file.len() {
                return Some((1, row));
            }
            let (home, cell) = (self.field(row, 0), self.field(row, 2));
            let homes = self.field(self.starts[1], 0);
            if home == 0 || home > homes || cell >= self.field(self.home(home), 2) {
                return Some((3, row));
            }
        }
        let end = start + 2 + 8 * count;
        if end < self.file.len() {
            return Some((4, end));
        }
        if matches!(four, Some((5, _))) {
            return four;
        }
        let position = |row| (self.field(row, 0), self.field(row, 2));
        for pair in rows.windows(2) {
            if position(pair[1]) <= position(pair[0]) {
                return Some((10, pair[1]));
            }
        }
        let reference = rows.iter().find(|&&row| self.target(position(row).0) != 0);
        four.or(reference.map(|&row| (6, row)))
    }
}
