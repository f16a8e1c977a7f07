//! Files that earn more than one of the refusals after 4, so that their order
//! shows.

use super::values::{fall, int_cells, reference_cell, some_values};
use crate::builder::Builder;
use crate::random::Random;
use crate::routine::Routine;
use crate::rows::{Expr, Home, Operator, Type, LARGEST_HOME, MOST_CELLS};

/// A routine with two or three of the flaws below. Some of the files earn one
/// of 1 to 4 besides.
pub fn clashing(random: &mut Random, routine: &Routine) -> Vec<u8> {
    let mut clash = Clash::new(random, routine);
    let mut flaws = [0, 1, 2, 3, 4];
    let chosen = clash.random.pick(&[2, 2, 3]);
    for place in 0..chosen {
        let other = place + clash.random.index(flaws.len() - place);
        flaws.swap(place, other);
        match flaws[place] {
            0 => clash.many_cells(),
            1 => clash.falling_value(),
            2 => clash.reference_value(),
            3 => clash.wrong_expression(),
            _ => clash.wrong_command(),
        }
    }
    let mut file = clash.builder.file();
    match random.below(10) {
        0 => file.push(random.draw() as u8),
        1 => {
            file.pop();
        }
        _ => {}
    }
    file
}

struct Clash<'a> {
    random: &'a mut Random,
    builder: Builder,
    /// Homes with cells of int and of references.
    int: Home,
    reference: Home,
}

impl<'a> Clash<'a> {
    fn new(random: &'a mut Random, routine: &Routine) -> Clash<'a> {
        let mut builder = Builder::from(routine);
        let to_int = builder.reference(Type::INT);
        let to_reference = builder.reference(to_int);
        let int = builder.home(to_int, 2);
        let reference = builder.home(to_reference, 2);
        Clash {
            random,
            builder,
            int,
            reference,
        }
    }

    /// Refusal 5.
    fn many_cells(&mut self) {
        let sizes = self.builder.homes.iter().map(|row| usize::from(row.size));
        let mut cells: usize = sizes.sum();
        let types = self.builder.targets.len() as u64;
        while cells <= MOST_CELLS {
            let of = Type(self.random.between(1, types) as u16);
            self.builder.home(of, LARGEST_HOME);
            cells += usize::from(LARGEST_HOME);
        }
    }

    /// Refusal 10.
    fn falling_value(&mut self) {
        let mut rows = self.builder.start_values.take().unwrap_or_default();
        if rows.is_empty() {
            rows = some_values(self.random, &int_cells(&self.builder), 3);
        }
        fall(self.random, &mut rows);
        self.builder.start_values = Some(rows);
    }

    /// Refusal 6 at a start value.
    fn reference_value(&mut self) {
        let mut rows = self.builder.start_values.take().unwrap_or_default();
        reference_cell(self.random, &self.builder, &mut rows);
        self.builder.start_values = Some(rows);
    }

    fn int_and_pointer(&mut self) -> (Expr, Expr) {
        let home = self.random.pick(&[self.int, self.reference]);
        (self.builder.literal(1), self.builder.at(home))
    }

    /// Refusal 6 at an expression.
    fn wrong_expression(&mut self) {
        let (int, pointer) = self.int_and_pointer();
        match self.random.below(3) {
            0 => self.builder.read(int),
            1 => self.builder.sum(int, int),
            _ => self.builder.operation(Operator::Add, pointer, int),
        };
    }

    /// Refusal 6 at a command.
    fn wrong_command(&mut self) {
        let (int, pointer) = self.int_and_pointer();
        if self.random.percent(50) {
            self.builder.store(int, pointer);
        } else {
            let skip = self.builder.skip();
            self.builder.choose(pointer, skip, skip);
        }
    }
}
