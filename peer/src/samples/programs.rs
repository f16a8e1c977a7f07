//! Routines that do something: loops, copies, a sort.

use crate::builder::Builder;
use crate::rows::{Cmd, Expr, Home, Operator, Type};

/// `cell = cell + step`, through a pointer to int.
fn add(b: &mut Builder, cell: Expr, step: Expr) -> Cmd {
    let old = b.read(cell);
    let new = b.operation(Operator::Add, old, step);
    b.store(cell, new)
}

/// `while cell < limit { body; cell = cell + 1 }`.
fn count_up(b: &mut Builder, cell: Expr, limit: Expr, body: Cmd) -> Cmd {
    let count = b.read(cell);
    let more = b.operation(Operator::Less, count, limit);
    let one = b.literal(1);
    let step = add(b, cell, one);
    let round = b.then(body, step);
    b.repeat(more, round)
}

/// A cell of its own home, with a type of its own that stays SAFE.
fn variable(b: &mut Builder) -> Expr {
    let of = b.reference(Type::INT);
    let home = b.home(of, 1);
    b.at(home)
}

/// Counts to n in one SAFE cell.
pub fn counting_loop(n: u32) -> Builder {
    let mut b = Builder::new();
    let count = variable(&mut b);
    let limit = b.literal(n);
    let skip = b.skip();
    count_up(&mut b, count, limit, skip);
    b
}

/// Copies the cells of one home to another by pointer sums.
pub fn copy(cells: u16) -> Builder {
    let mut b = Builder::new();
    let index = variable(&mut b);
    let of = b.reference(Type::INT);
    let from = b.home(of, cells);
    let to = b.home(of, cells);
    let limit = b.literal(u32::from(cells));
    let offset = b.read(index);
    let from = b.at(from);
    let from = b.sum(from, offset);
    let to = b.at(to);
    let to = b.sum(to, offset);
    let value = b.read(from);
    let body = b.store(to, value);
    count_up(&mut b, index, limit, body);
    b
}

/// One expression, 1,022 rows deep.
pub fn deep_expression() -> Builder {
    let mut b = Builder::new();
    let cell = variable(&mut b);
    let one = b.literal(1);
    let mut value = one;
    while b.expressions.len() < 1024 {
        value = b.operation(Operator::Add, value, one);
    }
    b.store(cell, value);
    b
}

/// 1,024 commands, each around the one before.
pub fn deep_commands() -> Builder {
    let mut b = Builder::new();
    let cell = variable(&mut b);
    let one = b.literal(1);
    let skip = b.skip();
    let mut last = b.store(cell, one);
    while b.commands.len() < 1024 {
        last = b.choose(one, last, skip);
    }
    b
}

/// Fills a home with scattered numbers, then sorts it by exchanging neighbours.
pub fn sort(cells: u16) -> Builder {
    let mut b = Builder::new();
    let outer = variable(&mut b);
    let inner = variable(&mut b);
    let held = variable(&mut b);
    let of = b.reference(Type::INT);
    let list = b.home(of, cells);
    let list = b.at(list);
    let limit = b.literal(u32::from(cells));
    let last = b.literal(u32::from(cells) - 1);
    let zero = b.literal(0);
    let one = b.literal(1);

    let factor = b.literal(1_103_515_245);
    let addend = b.literal(12_345);
    let seed = b.read(held);
    let scaled = b.operation(Operator::Multiply, seed, factor);
    let next = b.operation(Operator::Add, scaled, addend);
    let scatter = b.store(held, next);
    let at_outer = b.read(outer);
    let filled = b.sum(list, at_outer);
    let fill = b.store(filled, seed);
    let fill = b.then(scatter, fill);
    let fill = count_up(&mut b, outer, limit, fill);

    let at_inner = b.read(inner);
    let left = b.sum(list, at_inner);
    let right = b.sum(left, one);
    let left_value = b.read(left);
    let right_value = b.read(right);
    let unordered = b.operation(Operator::Less, right_value, left_value);
    let hold = b.store(held, left_value);
    let move_left = b.store(left, right_value);
    let held_value = b.read(held);
    let move_right = b.store(right, held_value);
    let exchange = b.sequence(&[hold, move_left, move_right]);
    let skip = b.skip();
    let order = b.choose(unordered, exchange, skip);
    let pass = count_up(&mut b, inner, last, order);
    let rewind = b.store(inner, zero);
    let pass = b.then(rewind, pass);
    let rewind = b.store(outer, zero);
    let passes = count_up(&mut b, outer, limit, pass);
    b.sequence(&[fill, rewind, passes]);
    b
}

/// Adds up what a row of SAFE pointers point to, through a SEQ pointer to them.
pub fn pointers(cells: u16) -> Builder {
    let mut b = Builder::new();
    let index = variable(&mut b);
    let total = variable(&mut b);
    let number = b.reference(Type::INT);
    let numbers = b.reference(number);
    let item = b.home(number, 1);
    let list = b.home(numbers, cells);
    let item = b.at(item);
    let list = b.at(list);
    let limit = b.literal(u32::from(cells));
    let seven = b.literal(7);
    let zero = b.literal(0);
    let offset = b.read(index);
    let slot = b.sum(list, offset);

    let set_item = b.store(item, seven);
    let set_slot = b.store(slot, item);
    let fill = count_up(&mut b, index, limit, set_slot);
    let rewind = b.store(index, zero);
    let pointer = b.read(slot);
    let value = b.read(pointer);
    let tally = add(&mut b, total, value);
    let add_up = count_up(&mut b, index, limit, tally);
    b.sequence(&[set_item, fill, rewind, add_up]);
    b
}

/// 256 start values over 64 homes and 4,096 cells. The body asks for the last
/// of them and no more, so that nearly all of a run is its start.
pub fn start_values() -> Builder {
    let mut b = Builder::new();
    let of = b.reference(Type::INT);
    for _ in 0..64 {
        let home = b.home(of, 64);
        for cell in [15, 31, 47, 63] {
            b.start_value(home, cell, 1);
        }
    }
    let first = b.at(Home(1));
    let last = b.at(Home(64));
    let offset = b.literal(63);
    let last = b.sum(last, offset);
    let disc = b.read(last);
    let note = b.store(first, disc);
    let skip = b.skip();
    b.choose(disc, note, skip);
    b
}

/// Thirty small routines: each notes a reading in a ring and counts those
/// over a threshold.
pub fn tray() -> Vec<Builder> {
    (0..30).map(tray_routine).collect()
}

fn tray_routine(number: u32) -> Builder {
    let mut b = Builder::new();
    let reading = variable(&mut b);
    let high = variable(&mut b);
    let of = b.reference(Type::INT);
    let ring = b.home(of, 8);
    let ring = b.at(ring);
    let seven = b.literal(7);
    let start = b.literal(number.wrapping_mul(2_654_435_761));
    let threshold = b.literal(1 << 31);
    let one = b.literal(1);

    let take = b.store(reading, start);
    let value = b.read(reading);
    let slot = b.operation(Operator::And, value, seven);
    let slot = b.sum(ring, slot);
    let note = b.store(slot, value);
    let is_low = b.operation(Operator::Less, value, threshold);
    let skip = b.skip();
    let count = add(&mut b, high, one);
    let judge = b.choose(is_low, skip, count);
    b.sequence(&[take, note, judge]);
    b
}
