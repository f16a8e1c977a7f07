//! Full files, and files that give an inference the most work: each raise
//! asks for another one in a row or level that was looked at before.

use crate::builder::Builder;
use crate::rows::{Cmd, Expr, Home, Operator, Type};

const MOST_TYPES: usize = 255;
const MOST_ROWS: usize = 1024;

/// The longest file: 255 types, 64 homes, 1,024 expressions and commands, and
/// 256 start values, which are all cells of the four homes of int.
pub fn longest() -> Builder {
    let mut b = Builder::new();
    for number in 0..MOST_TYPES {
        b.reference(Type(number as u16 / 4));
    }
    for number in 1..=64 {
        b.home(Type(number), 64);
        b.at(Home(number));
    }
    let one = b.literal(1);
    while b.expressions.len() < MOST_ROWS {
        let home = Expr(b.expressions.len() as u16 % 64);
        match b.expressions.len() % 4 {
            0 => b.read(home),
            1 => b.cast(home, Type::INT),
            2 => b.sum(home, one),
            _ => b.operation(Operator::Add, one, one),
        };
    }
    b.store(Expr(0), one);
    while b.commands.len() < MOST_ROWS {
        let last = Cmd(b.commands.len() as u16 - 1);
        b.then(Cmd(0), last);
    }
    for home in 1..=4 {
        for cell in 0..64 {
            b.start_value(Home(home), cell, u32::from(home * cell));
        }
    }
    b
}

/// 255 types in a chain of casts; the last is made SEQ by the last row, and
/// each cast takes that one type back.
pub fn rising_seq() -> Builder {
    let mut b = Builder::new();
    for _ in 0..MOST_TYPES {
        b.reference(Type::INT);
    }
    let zero = b.literal(0);
    let mut pointer = b.null(Type(1));
    let casts = MOST_ROWS - 3;
    for cast in 0..casts {
        let t = 1 + cast * MOST_TYPES / casts;
        pointer = b.cast(pointer, Type(t as u16));
    }
    b.sum(pointer, zero);
    while b.commands.len() < MOST_ROWS {
        b.store(pointer, zero);
    }
    b
}

/// A chain of 255 types, and 2,047 conversions from its top to one level
/// below. They differ at the bottom only, and DYNAMIC climbs level by level.
pub fn falling_dynamic() -> Builder {
    let mut b = Builder::new();
    for number in 0..MOST_TYPES {
        b.reference(Type(number as u16));
    }
    let top = b.null(Type(MOST_TYPES as u16));
    while b.expressions.len() < MOST_ROWS {
        b.cast(top, Type(MOST_TYPES as u16 - 1));
    }
    while b.commands.len() < MOST_ROWS {
        b.store(top, top);
    }
    b
}

/// Chains of references side by side, and a null of every type in them.
struct Chains {
    width: usize,
    depth: usize,
    nulls: Vec<Expr>,
}

impl Chains {
    fn new(b: &mut Builder, width: usize, depth: usize) -> Chains {
        for _ in 0..width {
            let mut target = Type::INT;
            for _ in 0..depth {
                target = b.reference(target);
            }
        }
        let types = (width * depth) as u16;
        let nulls = (1..=types).map(|t| b.null(Type(t))).collect();
        Chains {
            width,
            depth,
            nulls,
        }
    }

    /// The type so many levels above int, from 0, in the chain of this number.
    fn level(&self, chain: usize, level: usize) -> Type {
        Type((chain * self.depth + level + 1) as u16)
    }

    fn null(&self, chain: usize, level: usize) -> Expr {
        self.nulls[chain * self.depth + level]
    }

    /// Fills the expressions with casts from each chain to the next, at every
    /// level, and then a sum at every level of the last chain.
    fn casts_then_sums(&self, b: &mut Builder) {
        let zero = b.literal(0);
        let pairs = (self.width - 1) * self.depth;
        let casts = MOST_ROWS - b.expressions.len() - self.depth;
        for cast in 0..casts {
            let (chain, level) = (cast % pairs / self.depth, cast % self.depth);
            b.cast(self.null(chain, level), self.level(chain + 1, level));
        }
        for level in 0..self.depth {
            b.sum(self.null(self.width - 1, level), zero);
        }
    }

    /// Stores that convert from each chain to the one before.
    fn stores(&self, b: &mut Builder, stores: usize) {
        for store in 0..stores {
            let chain = store % (self.width - 1);
            let level = store % (self.depth - 1);
            b.store(self.null(chain, level + 1), self.null(chain + 1, level));
        }
    }
}

/// Two chains of 127 types, paired at every level.
pub fn deep_pairs() -> Builder {
    let mut b = Builder::new();
    let chains = Chains::new(&mut b, 2, 127);
    chains.casts_then_sums(&mut b);
    chains.stores(&mut b, MOST_ROWS);
    b
}

/// Fifteen chains of 17 types, each paired with the next at every level; the
/// last store makes all of them DYNAMIC.
pub fn ladder() -> Builder {
    let mut b = Builder::new();
    let chains = Chains::new(&mut b, 15, 17);
    chains.casts_then_sums(&mut b);
    chains.stores(&mut b, MOST_ROWS - 1);
    b.store(chains.null(14, 16), chains.null(14, 16));
    b
}
