//! The types, homes, start values and expressions of generated routines.

use super::values::values;
use crate::builder::Builder;
use crate::random::Random;
use crate::rows::{Cmd, Expr, Expression, Home, Operator, StartValue, Type};

/// How one routine leans, in percent, so that routines differ and not only
/// their rows.
pub struct Leaning {
    /// Casts between references of different depth.
    pub wild: u64,
    /// Integers made into pointers.
    pub forged: u64,
    /// Pointer sums, on types that have any.
    pub sums: u64,
    /// Types that have sums.
    pub moved: u64,
    /// Nulls.
    pub nulls: u64,
    /// Rows named more than once.
    pub shared: u64,
    /// Reads of cells that have a start value.
    pub asked: u64,
}

impl Leaning {
    fn new(random: &mut Random) -> Leaning {
        Leaning {
            wild: random.pick(&[0, 0, 0, 3, 15]),
            forged: random.pick(&[0, 0, 2, 10]),
            sums: random.pick(&[5, 15, 30]),
            moved: random.pick(&[0, 30, 60, 100]),
            nulls: random.pick(&[0, 2, 10]),
            shared: random.pick(&[0, 10, 30]),
            asked: random.pick(&[0, 10, 30]),
        }
    }
}

/// Rows beyond this many are kept small.
pub const MANY_ROWS: usize = 800;

/// A number that is small, or at some edge, or any.
pub fn number(random: &mut Random) -> u32 {
    match random.below(12) {
        0 => random.draw() as u32,
        1 => random.pick(&[1 << 31, 31, 32, 33, 65_535, 65_536]),
        2 => far(random),
        _ => random.below(6) as u32,
    }
}

/// A number that is small and negative, mod 2^32.
fn far(random: &mut Random) -> u32 {
    u32::MAX - random.below(8) as u32
}

/// Writes a well-formed routine by chance.
pub struct Weaver<'a> {
    pub random: &'a mut Random,
    pub builder: Builder,
    pub leaning: Leaning,
    /// The number of references down to int, for each type number.
    depths: Vec<usize>,
    /// Whether pointer sums are made on a type, for each type row.
    moved: Vec<bool>,
    /// The type of each expression row.
    types_of: Vec<Type>,
}

impl<'a> Weaver<'a> {
    /// Any types and homes.
    pub fn new(random: &'a mut Random) -> Weaver<'a> {
        let types = match random.below(20) {
            0 => 0,
            1 => random.between(7, 30),
            _ => random.between(1, 6),
        };
        let levels = random.between(2, 4);
        let towers = random.percent(20);
        let targets: Vec<Type> = (1..=types)
            .map(|number| match (towers, random.percent(50)) {
                // Chains of equal depth, which convert to each other.
                (true, _) if number % levels == 1 => Type::INT,
                (true, _) => Type(number as u16 - 1),
                (false, true) => Type::INT,
                (false, false) => Type(random.below(number) as u16),
            })
            .collect();
        let homes = random.pick(&[0, 1, 2, 2, 3, 3, 4, 4, 5, 7]);
        let homes: Vec<Type> = (0..if types == 0 { 0 } else { homes })
            .map(|_| Type(random.between(1, types) as u16))
            .collect();
        let leaning = Leaning::new(random);
        let moved = (0..types).map(|_| random.percent(leaning.moved)).collect();
        Weaver::with(random, leaning, &targets, moved, &homes)
    }

    /// A moved and an unmoved type of the same depth, and homes of both and
    /// of references to them: what `slip` asks for.
    pub fn for_slips(random: &'a mut Random) -> Weaver<'a> {
        let targets = [0, 0, 1, 2].map(Type);
        let homes = [1, 4, 2, 3].map(Type);
        let leaning = Leaning {
            wild: 0,
            ..Leaning::new(random)
        };
        let moved = vec![true, false, random.percent(30), random.percent(50)];
        Weaver::with(random, leaning, &targets, moved, &homes)
    }

    pub fn with(
        random: &'a mut Random,
        leaning: Leaning,
        targets: &[Type],
        moved: Vec<bool>,
        homes: &[Type],
    ) -> Weaver<'a> {
        let mut builder = Builder::new();
        let mut depths = vec![0];
        for &target in targets {
            builder.reference(target);
            depths.push(depths[usize::from(target.0)] + 1);
        }
        for &of in homes {
            let size = match random.below(40) {
                0 => random.between(7, 100),
                _ => random.between(1, 6),
            };
            builder.home(of, size as u16);
        }
        builder.start_values = values(random, &builder);
        Weaver {
            random,
            builder,
            leaning,
            depths,
            moved,
            types_of: Vec::new(),
        }
    }

    pub fn row(&mut self, row: Expression, type_of: Type) -> Expr {
        self.types_of.push(type_of);
        self.builder.expression(row)
    }

    pub fn type_of(&self, e: Expr) -> Type {
        self.types_of[usize::from(e.0)]
    }

    pub fn is_moved(&self, t: Type) -> bool {
        self.moved[usize::from(t.0) - 1]
    }

    pub fn depth(&self, t: Type) -> usize {
        self.depths[usize::from(t.0)]
    }

    pub fn target(&self, t: Type) -> Type {
        self.builder.targets[usize::from(t.0) - 1]
    }

    /// Any type row that will do.
    pub fn some_type(&mut self, fits: impl Fn(&Self, Type) -> bool) -> Option<Type> {
        let all: Vec<Type> = (1..self.depths.len())
            .map(|t| Type(t as u16))
            .filter(|&t| fits(self, t))
            .collect();
        (!all.is_empty()).then(|| self.random.pick(&all))
    }

    pub fn some_home(&mut self, fits: impl Fn(&Self, Type) -> bool) -> Option<(Home, Type)> {
        let all: Vec<(Home, Type)> = self
            .builder
            .homes
            .iter()
            .enumerate()
            .map(|(index, row)| (Home(index as u16 + 1), row.of))
            .filter(|&(_, of)| fits(self, of))
            .collect();
        (!all.is_empty()).then(|| self.random.pick(&all))
    }

    /// A pointer to a cell whose start value will do.
    pub fn asked(&mut self, fits: impl Fn(StartValue) -> bool) -> Option<Expr> {
        let rows = self.builder.start_values.iter().flatten();
        let all: Vec<(StartValue, Type)> = rows
            .map(|&row| (row, self.builder.homes[usize::from(row.home.0) - 1].of))
            .filter(|&(row, of)| (row.cell == 0 || self.is_moved(of)) && fits(row))
            .collect();
        if all.is_empty() {
            return None;
        }
        let (row, of) = self.random.pick(&all);
        let pointer = self.at(row.home, of);
        if row.cell == 0 {
            return Some(pointer);
        }
        let offset = self.literal(u32::from(row.cell));
        Some(self.sum(pointer, offset))
    }

    pub fn some_row(&mut self, fits: impl Fn(Type) -> bool) -> Option<Expr> {
        let all: Vec<Expr> = (0..self.types_of.len())
            .filter(|&row| fits(self.types_of[row]))
            .map(|row| Expr(row as u16))
            .collect();
        (!all.is_empty()).then(|| self.random.pick(&all))
    }

    pub fn some_command(&mut self) -> Option<Cmd> {
        let commands = self.builder.commands.len();
        (commands > 0).then(|| Cmd(self.random.index(commands) as u16))
    }

    pub fn number(&mut self) -> u32 {
        number(self.random)
    }

    pub fn literal(&mut self, n: u32) -> Expr {
        self.row(Expression::Literal(n), Type::INT)
    }

    pub fn operation(&mut self, operator: Operator, a: Expr, b: Expr) -> Expr {
        self.row(Expression::Operation(operator, a, b), Type::INT)
    }

    pub fn sum(&mut self, pointer: Expr, offset: Expr) -> Expr {
        let of = self.type_of(pointer);
        self.row(Expression::Sum { pointer, offset }, of)
    }

    pub fn read(&mut self, pointer: Expr) -> Expr {
        let target = self.target(self.type_of(pointer));
        self.row(Expression::Read { pointer }, target)
    }

    pub fn cast(&mut self, value: Expr, to: Type) -> Expr {
        self.row(Expression::Cast { value, to }, to)
    }

    pub fn at(&mut self, home: Home, of: Type) -> Expr {
        self.row(Expression::Home(home), of)
    }

    fn many_rows(&self) -> bool {
        self.types_of.len() > MANY_ROWS
    }

    pub fn small(&self, depth: usize) -> bool {
        depth == 0 || self.many_rows()
    }

    /// An int.
    pub fn int(&mut self, depth: usize) -> Expr {
        if self.random.percent(self.leaning.shared) {
            if let Some(row) = self.some_row(Type::is_int) {
                return row;
            }
        }
        if !self.many_rows() && self.random.percent(self.leaning.asked) {
            if let Some(cell) = self.asked(|_| true) {
                return self.read(cell);
            }
        }
        if !self.small(depth) {
            match self.random.below(10) {
                0..=2 => {
                    let operator = self.random.pick(&Operator::ALL);
                    let a = self.int(depth - 1);
                    let b = if self.random.percent(80) {
                        let n = self.number().max(1);
                        self.literal(n)
                    } else {
                        self.int(depth - 1)
                    };
                    return self.operation(operator, a, b);
                }
                3..=5 => {
                    if let Some(of) = self.some_type(|w, t| w.target(t).is_int()) {
                        let pointer = self.pointer(of, depth - 1);
                        return self.read(pointer);
                    }
                }
                6 => {
                    if let Some(of) = self.some_type(|_, _| true) {
                        let mut pointer = self.pointer(of, depth - 1);
                        if self.is_moved(of) && self.random.percent(50) {
                            let far = far(self.random);
                            let offset = self.literal(far);
                            pointer = self.sum(pointer, offset);
                        }
                        return self.cast(pointer, Type::INT);
                    }
                }
                _ => {}
            }
        }
        let n = self.number();
        self.literal(n)
    }

    /// A reference of this type.
    pub fn pointer(&mut self, of: Type, depth: usize) -> Expr {
        if self.random.percent(self.leaning.shared) {
            if let Some(row) = self.some_row(|t| t == of) {
                return row;
            }
        }
        if !self.small(depth) {
            if self.random.percent(self.leaning.forged) {
                let number = self.int(depth - 1);
                return self.cast(number, of);
            }
            if self.random.percent(self.leaning.wild) {
                if let Some(from) = self.some_type(|_, _| true) {
                    let pointer = self.pointer(from, depth - 1);
                    return self.cast(pointer, of);
                }
            }
            if self.is_moved(of) && self.random.percent(self.leaning.sums) {
                let pointer = self.pointer(of, depth - 1);
                let offset = self.offset(depth - 1);
                return self.sum(pointer, offset);
            }
            if self.random.percent(20) {
                if let Some(through) = self.some_type(|w, t| w.target(t) == of) {
                    let pointer = self.pointer(through, depth - 1);
                    return self.read(pointer);
                }
            }
            if self.random.percent(15) {
                if let Some(from) = self.some_type(|w, t| w.depth(t) == w.depth(of)) {
                    let pointer = self.pointer(from, depth - 1);
                    return self.cast(pointer, of);
                }
            }
        }
        if !self.random.percent(self.leaning.nulls) {
            if let Some(pointer) = self.home_as(of) {
                return pointer;
            }
        }
        self.row(Expression::Null(of), of)
    }

    /// A home of this type, or of the same depth and cast.
    pub fn home_as(&mut self, of: Type) -> Option<Expr> {
        if let Some((home, of)) = self.some_home(|_, t| t == of) {
            return Some(self.at(home, of));
        }
        let (home, from) = self.some_home(|w, t| w.depth(t) == w.depth(of))?;
        let pointer = self.at(home, from);
        Some(self.cast(pointer, of))
    }

    pub fn offset(&mut self, depth: usize) -> Expr {
        match self.random.below(20) {
            0 => {
                let far = far(self.random);
                self.literal(far)
            }
            1..=4 => self.int(depth),
            _ => {
                let n = self.random.below(4) as u32;
                self.literal(n)
            }
        }
    }

    /// A value to store in a cell of this type.
    pub fn value(&mut self, cell: Type, depth: usize) -> Expr {
        if cell.is_int() {
            return match self.some_type(|_, _| true) {
                Some(of) if self.random.percent(8) => self.pointer(of, depth),
                _ => self.int(depth),
            };
        }
        if self.random.percent(self.leaning.forged) {
            return self.int(depth);
        }
        let of = if self.random.percent(self.leaning.wild) {
            self.some_type(|_, _| true)
        } else if self.random.percent(40) {
            self.some_type(|w, t| w.depth(t) == w.depth(cell))
        } else {
            None
        };
        self.pointer(of.unwrap_or(cell), depth)
    }
}
