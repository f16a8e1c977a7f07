//! Files at the limits of the format and just past them.

use super::values::{int_cells, some_values, MOST_VALUES};
use crate::builder::Builder;
use crate::random::Random;
use crate::rows::{Cmd, Expr, Expression, Home, Operator, Section, Type, LONGEST_FILE};
use crate::samples;

/// The number of boundary files there are; each has variants by chance.
pub const BOUNDARIES: u64 = 25;

/// The most bytes that a request's file can have.
const LONGEST_SENT: usize = 65_535;

pub fn boundary(which: u64, random: &mut Random) -> Vec<u8> {
    match which {
        0 => deep_type(random).file(),
        1 => twin_types(random).file(),
        2 => deep_expression(random).file(),
        3 => deep_pointer(random).file(),
        4 => deep_command(random, 2).file(),
        5 => deep_command(random, 1024).file(),
        6 => homes_of(random, 4096).file(),
        7 => homes_of(random, 4097).file(),
        8 => longest(random),
        9 => {
            let mut file = longest(random);
            file.push(random.draw() as u8);
            file
        }
        10 => {
            let mut file = longest(random);
            file.truncate(LONGEST_FILE - random.between(1, 9) as usize);
            file
        }
        11 => {
            let mut file = longest(random);
            let length = random.between(LONGEST_FILE as u64 + 1, LONGEST_SENT as u64);
            file.resize(length as usize, random.draw() as u8);
            file
        }
        12 => {
            let length = random.pick(&[LONGEST_FILE, LONGEST_FILE + 1, 20_000, LONGEST_SENT]);
            random.bytes(length)
        }
        13..=17 => high_count(random, Section::ALL[which as usize - 13]),
        18 => full_values(random).file(),
        19 => four_full(random),
        20 => samples::rising_seq().file(),
        21 => samples::falling_dynamic().file(),
        22 => samples::deep_pairs().file(),
        23 => samples::ladder().file(),
        _ => {
            let mut file = samples::ladder().file();
            let index = random.index(file.len());
            file[index] ^= 1 << random.below(8);
            file
        }
    }
}

/// A chain of 255 types, and casts between levels of it.
fn deep_type(random: &mut Random) -> Builder {
    let mut b = Builder::new();
    let top = chain(&mut b, Type::INT, 255);
    let home = b.home(top, 2);
    let mut pointer = b.at(home);
    if random.percent(50) {
        let casts = random.between(1, 3);
        for _ in 0..casts {
            let to = Type(random.pick(&[255, 255, 254, 1, 128]));
            pointer = b.cast(pointer, to);
        }
    }
    if random.percent(50) {
        let zero = b.literal(0);
        pointer = b.sum(pointer, zero);
    }
    let value = b.read(pointer);
    b.store(pointer, value);
    b
}

/// So many references on top of a type.
fn chain(b: &mut Builder, target: Type, levels: usize) -> Type {
    (0..levels).fold(target, |target, _| b.reference(target))
}

/// Two chains of 127 and of 128 or 127 types, the one cast to the other.
fn twin_types(random: &mut Random) -> Builder {
    let mut b = Builder::new();
    let low = chain(&mut b, Type::INT, 127);
    let levels = random.pick(&[127, 127, 128]);
    let high = chain(&mut b, Type::INT, levels);
    let home = b.home(low, 1);
    let pointer = b.at(home);
    let mut moved = b.cast(pointer, high);
    if random.percent(50) {
        let zero = b.literal(0);
        moved = b.sum(moved, zero);
    }
    let value = b.read(moved);
    b.store(pointer, value);
    b
}

/// 1,024 expression rows, each over the one before.
fn deep_expression(random: &mut Random) -> Builder {
    let mut b = Builder::new();
    let t = b.reference(Type::INT);
    let home = b.home(t, 1);
    let pointer = b.at(home);
    let one = b.literal(1);
    // Named twice, every row costs twice the one before.
    let doubled = random.percent(25);
    let mut last = one;
    while b.expressions.len() < 1024 {
        let operator = random.pick(&[Operator::Add, Operator::Add, Operator::Multiply]);
        last = match (doubled, random.below(3)) {
            (true, _) => b.operation(operator, last, last),
            (false, 0) => b.operation(operator, one, last),
            (false, _) => b.operation(operator, last, one),
        };
    }
    b.store(pointer, last);
    b
}

/// 1,024 expression rows of casts and sums of one pointer.
fn deep_pointer(random: &mut Random) -> Builder {
    let mut b = Builder::new();
    let t1 = b.reference(Type::INT);
    let t2 = b.reference(Type::INT);
    let home = b.home(t1, 3);
    let mut pointer = b.at(home);
    let zero = b.literal(0);
    let sums = random.pick(&[0, 50, 100]);
    while b.expressions.len() < 1024 {
        pointer = if random.percent(sums) {
            b.sum(pointer, zero)
        } else {
            let to = random.pick(&[t1, t2]);
            b.cast(pointer, to)
        };
    }
    b.store(pointer, zero);
    b
}

/// 1,024 command rows, each around the one before, over this many expression
/// rows.
fn deep_command(random: &mut Random, expressions: usize) -> Builder {
    let mut b = Builder::new();
    let t = b.reference(Type::INT);
    let home = b.home(t, 1);
    let pointer = b.at(home);
    let one = b.literal(1);
    let mut value = one;
    while b.expressions.len() < expressions {
        value = b.operation(Operator::Add, value, one);
    }
    let skip = b.skip();
    let mut last = b.store(pointer, value);
    let loops = random.percent(30);
    while b.commands.len() < 1024 {
        last = match random.below(4) {
            0 => b.then(last, skip),
            1 => b.choose(one, last, skip),
            2 if loops => b.repeat(one, last),
            _ => b.then(skip, last),
        };
    }
    b
}

/// Homes of so many cells together: few of them large, or all 64. Some of the
/// last cells may have start values.
fn homes_of(random: &mut Random, cells: u16) -> Builder {
    let mut b = Builder::new();
    let t1 = b.reference(Type::INT);
    let t2 = b.reference(t1);
    let homes = random.pick(&[5, 33, 64]);
    let mut left = cells;
    for number in 1..=homes {
        let rest = homes - number;
        let size = if rest == 0 {
            left
        } else {
            (left - rest).min(1024).min(left / (rest + 1) * 2)
        };
        let of = random.pick(&[t1, t2]);
        b.home(of, size.clamp(1, 1024));
        left -= size;
    }
    let last = b.homes[usize::from(homes) - 1];
    let end = b.literal(u32::from(last.size) - 1);
    let pointer = b.at(Home(homes));
    let pointer = b.sum(pointer, end);
    let value = b.cast(pointer, if last.of == t1 { Type::INT } else { t1 });
    b.store(pointer, value);
    if random.percent(50) {
        let cells = int_cells(&b);
        let last = &cells[cells.len().saturating_sub(20)..];
        b.start_values = Some(some_values(random, last, 15));
    }
    b
}

/// 256 start values in one home, or over many of either of two types. The
/// body asks for the last of them.
fn full_values(random: &mut Random) -> Builder {
    let mut b = Builder::new();
    let types = [b.reference(Type::INT), b.reference(Type::INT)];
    let (homes, size) = random.pick(&[(1, 256), (1, 1024), (2, 128), (4, 1024), (64, 4)]);
    for _ in 0..homes {
        let of = random.pick(&types);
        b.home(of, size);
    }
    let rows = some_values(random, &int_cells(&b), MOST_VALUES);
    let last = rows[rows.len() - 1];
    b.start_values = Some(rows);
    let first = b.at(Home(1));
    let mut pointer = b.at(last.home);
    if last.cell > 0 {
        let offset = b.literal(u32::from(last.cell));
        pointer = b.sum(pointer, offset);
    }
    let value = b.read(pointer);
    let note = b.store(first, value);
    let skip = b.skip();
    b.choose(value, note, skip);
    b
}

/// Every section full but the fifth, which is not there, or cut, or has no
/// rows.
fn four_full(random: &mut Random) -> Vec<u8> {
    let mut b = full_sections(random);
    b.start_values = None;
    let mut file = b.file();
    let fifth: &[u8] = random.pick(&[&[], &[], &[0][..], &[0, 0], &[0, 1], &[1, 1], &[0, 0, 0]]);
    file.extend(fifth);
    file
}

/// A file of 15,112 bytes.
fn longest(random: &mut Random) -> Vec<u8> {
    full_sections(random).file()
}

/// Every section full.
fn full_sections(random: &mut Random) -> Builder {
    if random.percent(30) {
        return samples::longest();
    }
    let mut b = Builder::new();
    for number in 0..255 {
        let target = if random.percent(70) {
            0
        } else {
            random.below(number + 1)
        };
        b.reference(Type(target as u16));
    }
    for _ in 0..64 {
        let of = Type(random.between(1, 255) as u16);
        b.home(of, random.between(1, 64) as u16);
    }
    let homes = random.between(1, 64);
    for number in 1..=homes {
        b.at(Home(number as u16));
    }
    let one = b.literal(1);
    while b.expressions.len() < 1024 {
        let rows = b.expressions.len();
        let pointer = Expr(random.below(homes) as u16);
        match random.below(5) {
            0 => b.sum(pointer, one),
            1 => b.cast(pointer, Type::INT),
            2 => b.cast(Expr(random.index(rows) as u16), Type::INT),
            3 => b.null(Type(random.between(1, 255) as u16)),
            _ => b.operation(Operator::Add, one, one),
        };
    }
    let mut last = b.skip();
    while b.commands.len() < 1024 {
        let pointer = Expr(random.below(homes) as u16);
        last = match random.below(3) {
            0 => b.then(last, Cmd(0)),
            1 => b.store(pointer, pointer),
            _ => {
                let first = Cmd(random.index(b.commands.len()) as u16);
                b.then(first, last)
            }
        };
    }
    b.start_values = Some(some_values(random, &int_cells(&b), MOST_VALUES));
    b
}

/// A section with one row more than allowed, or a count far over.
fn high_count(random: &mut Random, section: Section) -> Vec<u8> {
    let mut b = Builder::new();
    let t = b.reference(Type::INT);
    let home = b.home(t, 300);
    b.expression(Expression::Literal(7));
    b.skip();
    b.start_value(home, 0, 1);
    let rows = usize::from(section.limit()) + 1;
    if random.percent(50) {
        match section {
            Section::Types => b.targets.resize(rows, Type::INT),
            Section::Homes => b.homes.resize(rows, b.homes[0]),
            Section::Expressions => b.expressions.resize(rows, b.expressions[0]),
            Section::Commands => b.commands.resize(rows, b.commands[0]),
            Section::Values => {
                for cell in 1..rows {
                    b.start_value(home, cell as u16, 1);
                }
            }
        }
        return b.file();
    }
    let counts = [0, 4, 10, 17, 26];
    let mut file = b.file();
    let place = counts[section as usize];
    file[place] = 0xff;
    file[place + 1] = 0xff;
    file
}
