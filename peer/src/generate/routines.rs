//! Well-formed routines that store, loop, cast both ways and mix kinds.

use super::weave::{Weaver, MANY_ROWS};
use crate::builder::Builder;
use crate::random::Random;
use crate::rows::{Cmd, Expression, Home, Operator, Type};

/// A routine of statements that a person might have meant.
pub fn woven(random: &mut Random) -> Builder {
    let mut weaver = Weaver::new(random);
    let mut statements = weaver.prime();
    if weaver.random.percent(40) {
        let statement = weaver.ask(3);
        statements.push(statement);
    }
    for _ in 0..weaver.random.between(1, 9) {
        if weaver.random.percent(10) {
            weaver.spare_row();
        }
        let statement = weaver.statement(3);
        statements.push(statement);
    }
    weaver.builder.sequence(&statements);
    weaver.builder
}

/// A short routine of pointers that are moved and then converted.
pub fn slipping(random: &mut Random) -> Builder {
    let mut weaver = Weaver::for_slips(random);
    let mut statements = Vec::new();
    for _ in 0..weaver.random.between(1, 4) {
        let statement = match weaver.random.below(3) {
            0 => weaver.store(),
            _ => weaver.slip(),
        };
        statements.push(statement);
    }
    weaver.builder.sequence(&statements);
    weaver.builder
}

/// A routine of rows that name any earlier rows of the right shape.
pub fn tangled(random: &mut Random) -> Builder {
    let mut weaver = Weaver::new(random);
    for _ in 0..weaver.random.below(3) {
        if let Some(cell) = weaver.asked(|_| true) {
            weaver.read(cell);
        }
    }
    let rows = weaver.random.pick(&[0, 1, 3, 10, 30]);
    for _ in 0..rows {
        weaver.spare_row();
    }
    let commands = weaver.random.pick(&[1, 2, 5, 20]);
    for _ in 0..commands {
        weaver.tangled_command();
    }
    weaver.builder
}

impl Weaver<'_> {
    /// Puts pointers into cells that are to hold some.
    fn prime(&mut self) -> Vec<Cmd> {
        let homes = self.builder.homes.clone();
        let mut stores = Vec::new();
        for (index, row) in homes.into_iter().enumerate() {
            let cell = self.target(row.of);
            if cell.is_int() || self.random.percent(20) {
                continue;
            }
            let cells = if self.is_moved(row.of) {
                row.size.min(4)
            } else {
                1
            };
            for offset in 0..cells {
                let Some(value) = self.home_as(cell) else {
                    break;
                };
                let mut pointer = self.at(Home(index as u16 + 1), row.of);
                if offset > 0 {
                    let offset = self.literal(u32::from(offset));
                    pointer = self.sum(pointer, offset);
                }
                stores.push(self.builder.store(pointer, value));
            }
        }
        stores
    }

    fn statement(&mut self, depth: usize) -> Cmd {
        if depth == 0 || self.builder.commands.len() > MANY_ROWS {
            return self.store();
        }
        match self.random.below(20) {
            0 => self.builder.skip(),
            1 => {
                let first = self.statement(depth - 1);
                let second = self.statement(depth - 1);
                self.builder.then(first, second)
            }
            2..=4 => {
                let condition = self.int(2);
                let then = self.statement(depth - 1);
                let otherwise = self.statement(depth - 1);
                self.builder.choose(condition, then, otherwise)
            }
            5..=7 => self.counting_loop(depth),
            8..=9 => self.slip(),
            10 if self.random.percent(50) => {
                let condition = self.int(3);
                let body = self.statement(depth - 1);
                self.builder.repeat(condition, body)
            }
            11..=12 => self.ask(depth),
            _ => self.store(),
        }
    }

    /// Asks for a start value, and then decides by it, counts it down or puts
    /// down what comes of it.
    fn ask(&mut self, depth: usize) -> Cmd {
        let form = self.random.below(3);
        let Some(cell) = self.asked(|row| form != 1 || row.value < 8) else {
            return self.statement(depth - 1);
        };
        let value = self.read(cell);
        match form {
            0 => {
                let known = self.number();
                let known = self.literal(known);
                let condition = match self.random.below(4) {
                    0 => self.operation(Operator::Equal, value, known),
                    1 => self.operation(Operator::Less, known, value),
                    _ => value,
                };
                let then = self.statement(depth - 1);
                let otherwise = self.statement(depth - 1);
                self.builder.choose(condition, then, otherwise)
            }
            1 => {
                let work = self.statement(depth - 1);
                let one = self.literal(1);
                let less = self.operation(Operator::Subtract, value, one);
                let step = self.builder.store(cell, less);
                let body = self.builder.then(work, step);
                self.builder.repeat(value, body)
            }
            _ => {
                let operator = self.random.pick(&Operator::ALL);
                let other = self.int(2);
                let result = self.operation(operator, value, other);
                let of = self.some_type(|w, t| w.target(t).is_int());
                // The cell's own type is such a one.
                let pointer = self.pointer(of.unwrap_or(self.type_of(cell)), 2);
                self.builder.store(pointer, result)
            }
        }
    }

    fn store(&mut self) -> Cmd {
        let through = match self.some_home(|_, _| true) {
            Some((_, of)) if self.random.percent(60) => Some(of),
            Some((_, of)) if self.random.percent(80) => {
                self.some_type(|w, t| w.depth(t) == w.depth(of))
            }
            _ => self.some_type(|_, _| true),
        };
        let Some(of) = through else {
            return self.builder.skip();
        };
        let pointer = self.pointer(of, 3);
        let value = self.value(self.target(of), 3);
        self.builder.store(pointer, value)
    }

    /// A pointer is moved, perhaps out of its home, and then converted to a
    /// type of the same depth: by a cast, or by storing it.
    fn slip(&mut self) -> Cmd {
        let Some((home, from)) = self.some_home(|w, t| w.is_moved(t)) else {
            return self.store();
        };
        let fits = |w: &Self, t| w.depth(t) == w.depth(from) && !w.is_moved(t);
        let Some(to) = self.some_type(fits) else {
            return self.store();
        };
        let pointer = self.at(home, from);
        let distance = self.random.below(7) as u32;
        let offset = self.literal(distance);
        let moved = self.sum(pointer, offset);
        match self.some_home(|w, t| w.target(t) == to) {
            Some((keeper, of)) if self.random.percent(60) => {
                let mut through = self.at(keeper, of);
                if self.is_moved(of) {
                    let offset = self.offset(1);
                    through = self.sum(through, offset);
                }
                self.builder.store(through, moved)
            }
            _ => {
                let cast = self.cast(moved, to);
                let value = self.value(self.target(to), 2);
                self.builder.store(cast, value)
            }
        }
    }

    /// A loop that counts in an int cell, and uses its count as an offset.
    fn counting_loop(&mut self, depth: usize) -> Cmd {
        let Some((home, of)) = self.some_home(|w, t| w.target(t).is_int()) else {
            return self.statement(depth - 1);
        };
        let counter = self.at(home, of);
        let zero = self.literal(0);
        let start = self.builder.store(counter, zero);
        let count = self.read(counter);
        let times = self.random.between(1, 8) as u32;
        let limit = self.literal(times);
        let condition = self.operation(Operator::Less, count, limit);
        let work = match self.some_home(|_, _| true) {
            Some((other, other_of)) if self.is_moved(other_of) && self.random.percent(50) => {
                let pointer = self.at(other, other_of);
                let moved = self.sum(pointer, count);
                let value = self.value(self.target(other_of), 2);
                self.builder.store(moved, value)
            }
            _ => self.statement(depth - 1),
        };
        let one = self.literal(1);
        let more = self.operation(Operator::Add, count, one);
        let step = self.builder.store(counter, more);
        let body = self.builder.then(work, step);
        let around = self.builder.repeat(condition, body);
        self.builder.then(start, around)
    }

    /// An expression row of any form over any earlier rows. It may be used by
    /// nothing: it is judged all the same.
    fn spare_row(&mut self) {
        let some_type = self.some_type(|_, _| true);
        let int = self.some_row(Type::is_int);
        let pointer = self.some_row(|t| !t.is_int());
        let any = self.some_row(|_| true);
        match (self.random.below(9), int, pointer, any, some_type) {
            (0..=1, Some(offset), Some(pointer), ..) if self.is_moved(self.type_of(pointer)) => {
                self.sum(pointer, offset);
            }
            (2..=3, _, Some(pointer), ..) => {
                self.read(pointer);
            }
            (4, _, _, Some(value), Some(to)) => {
                let to = if self.random.percent(self.leaning.wild + 20) {
                    to
                } else {
                    self.type_of(value)
                };
                self.cast(value, to);
            }
            (5, _, _, Some(value), _) => {
                self.cast(value, Type::INT);
            }
            (6, .., Some(of)) => {
                self.row(Expression::Null(of), of);
            }
            (7, Some(a), ..) => {
                let operator = self.random.pick(&Operator::ALL);
                let b = self.some_row(Type::is_int).unwrap_or(a);
                self.operation(operator, a, b);
            }
            _ => match self.some_home(|_, _| true) {
                Some((home, of)) if self.random.percent(60) => {
                    self.at(home, of);
                }
                _ => {
                    let n = self.number();
                    self.literal(n);
                }
            },
        }
    }

    fn tangled_command(&mut self) {
        let int = self.some_row(Type::is_int);
        let pointer = self.some_row(|t| !t.is_int());
        let value = self.some_row(|_| true);
        let first = self.some_command();
        let second = self.some_command();
        match (self.random.below(8), int, first, second) {
            (0..=1, _, Some(first), Some(second)) => {
                self.builder.then(first, second);
            }
            (2, Some(condition), Some(then), Some(otherwise)) => {
                self.builder.choose(condition, then, otherwise);
            }
            (3, Some(condition), Some(body), _) => {
                self.builder.repeat(condition, body);
            }
            (4, ..) => {
                self.builder.skip();
            }
            _ => match (pointer, value) {
                (Some(pointer), Some(value)) => {
                    self.builder.store(pointer, value);
                }
                _ => {
                    self.builder.skip();
                }
            },
        }
    }
}
