//! The rows of the five sections: their meaning as enums, their bytes, and
//! the ways in which a whole row can be wrong.

use std::fmt;

/// The five sections of a routine file, in file order. A file may stop before
/// the last.
#[derive(Clone, Copy, Debug, PartialEq, Eq, PartialOrd, Ord, Hash)]
pub enum Section {
    Types,
    Homes,
    Expressions,
    Commands,
    Values,
}

impl Section {
    pub const ALL: [Section; 5] = [
        Section::Types,
        Section::Homes,
        Section::Expressions,
        Section::Commands,
        Section::Values,
    ];

    pub const fn row_bytes(self) -> usize {
        match self {
            Section::Types => 2,
            Section::Homes => 4,
            Section::Expressions => 5,
            Section::Commands => 7,
            Section::Values => 8,
        }
    }

    /// The most rows the section may have.
    pub const fn limit(self) -> u16 {
        match self {
            Section::Types => 255,
            Section::Homes => 64,
            Section::Expressions | Section::Commands => 1024,
            Section::Values => 256,
        }
    }

    pub const fn name(self) -> &'static str {
        match self {
            Section::Types => "types",
            Section::Homes => "homes",
            Section::Expressions => "expressions",
            Section::Commands => "commands",
            Section::Values => "values",
        }
    }

    /// What one row of the section is called.
    pub const fn row_name(self) -> &'static str {
        match self {
            Section::Types => "type",
            Section::Homes => "home",
            Section::Expressions => "expression",
            Section::Commands => "command",
            Section::Values => "start value",
        }
    }

    /// The number of the section's first row.
    pub const fn first_number(self) -> usize {
        match self {
            Section::Types | Section::Homes => 1,
            Section::Expressions | Section::Commands | Section::Values => 0,
        }
    }
}

/// The bytes of the longest file: five counts and every section full.
pub const LONGEST_FILE: usize = 15_112;

/// The most cells that one home may have.
pub const LARGEST_HOME: u16 = 1024;

/// The most cells that all homes of a routine may have together.
pub const MOST_CELLS: usize = 4096;

/// A type's number. 0 is int; a type row's number counts from 1.
#[derive(Clone, Copy, Debug, PartialEq, Eq, PartialOrd, Ord, Hash)]
pub struct Type(pub u16);

impl Type {
    pub const INT: Type = Type(0);

    pub fn is_int(self) -> bool {
        self == Type::INT
    }
}

/// A home's number. 0 is the null home; a home row's number counts from 1.
#[derive(Clone, Copy, Debug, PartialEq, Eq, PartialOrd, Ord, Hash)]
pub struct Home(pub u16);

impl Home {
    pub const NULL: Home = Home(0);
}

/// An expression row's number, from 0.
#[derive(Clone, Copy, Debug, PartialEq, Eq, PartialOrd, Ord, Hash)]
pub struct Expr(pub u16);

/// A command row's number, from 0.
#[derive(Clone, Copy, Debug, PartialEq, Eq, PartialOrd, Ord, Hash)]
pub struct Cmd(pub u16);

/// A start value row's number, from 0.
#[derive(Clone, Copy, Debug, PartialEq, Eq, PartialOrd, Ord, Hash)]
pub struct Start(pub u16);

/// A home row: the type that the home has as a variable, and its cells.
#[derive(Clone, Copy, Debug, PartialEq, Eq)]
pub struct HomeRow {
    pub of: Type,
    pub size: u16,
}

/// A start value row: the number that a cell holds when a run begins.
#[derive(Clone, Copy, Debug, PartialEq, Eq)]
pub struct StartValue {
    pub home: Home,
    pub cell: u16,
    pub value: u32,
}

#[derive(Clone, Copy, Debug, PartialEq, Eq, Hash)]
pub enum Operator {
    Add,
    Subtract,
    Multiply,
    Divide,
    Remainder,
    Equal,
    Less,
    And,
    ShiftRight,
}

impl Operator {
    /// In the order of their tags, the first of which is `FIRST_TAG`.
    pub const ALL: [Operator; 9] = [
        Operator::Add,
        Operator::Subtract,
        Operator::Multiply,
        Operator::Divide,
        Operator::Remainder,
        Operator::Equal,
        Operator::Less,
        Operator::And,
        Operator::ShiftRight,
    ];

    const FIRST_TAG: u8 = 16;

    fn from_tag(tag: u8) -> Option<Operator> {
        let index = tag.checked_sub(Self::FIRST_TAG)?;
        Self::ALL.get(usize::from(index)).copied()
    }

    fn tag(self) -> u8 {
        Self::FIRST_TAG + self as u8
    }

    pub const fn symbol(self) -> &'static str {
        match self {
            Operator::Add => "+",
            Operator::Subtract => "-",
            Operator::Multiply => "*",
            Operator::Divide => "/",
            Operator::Remainder => "%",
            Operator::Equal => "==",
            Operator::Less => "<",
            Operator::And => "&",
            Operator::ShiftRight => ">>",
        }
    }
}

#[derive(Clone, Copy, Debug, PartialEq, Eq)]
pub enum Expression {
    Literal(u32),
    Home(Home),
    Cast { value: Expr, to: Type },
    Null(Type),
    Sum { pointer: Expr, offset: Expr },
    Read { pointer: Expr },
    Operation(Operator, Expr, Expr),
}

#[derive(Clone, Copy, Debug, PartialEq, Eq)]
pub enum Command {
    Skip,
    Then(Cmd, Cmd),
    Store {
        pointer: Expr,
        value: Expr,
    },
    If {
        condition: Expr,
        then: Cmd,
        otherwise: Cmd,
    },
    While {
        condition: Expr,
        body: Cmd,
    },
}

/// What is wrong with a whole row.
#[derive(Clone, Copy, Debug, PartialEq, Eq, Hash)]
pub enum Flaw {
    UnknownTag(u8),
    /// A field that the row's tag does not use is not zero.
    Unused(&'static str),
    /// A field's number is outside its range.
    OutOfRange(&'static str, u16),
}

impl fmt::Display for Flaw {
    fn fmt(&self, f: &mut fmt::Formatter<'_>) -> fmt::Result {
        match self {
            Flaw::UnknownTag(tag) => write!(f, "tag {tag} is unknown"),
            Flaw::Unused(field) => write!(f, "unused field {field} is not zero"),
            Flaw::OutOfRange(field, number) => {
                write!(f, "{field} is {number}, outside its range")
            }
        }
    }
}

/// The numbers of rows that a row may name: all of the sections before its
/// own, and of its own those before it.
#[derive(Clone, Copy, Debug)]
pub struct Scope {
    pub types: usize,
    pub homes: usize,
    pub expressions: usize,
    pub commands: usize,
}

/// A field's number, to be held against its range.
fn within(field: &'static str, number: u16, range: std::ops::Range<usize>) -> Result<(), Flaw> {
    if range.contains(&usize::from(number)) {
        Ok(())
    } else {
        Err(Flaw::OutOfRange(field, number))
    }
}

fn zero(field: &'static str, number: u16) -> Result<(), Flaw> {
    if number == 0 {
        Ok(())
    } else {
        Err(Flaw::Unused(field))
    }
}

impl Type {
    /// A type row is its target.
    pub fn decode(row: [u8; 2]) -> Type {
        Type(u16::from_le_bytes(row))
    }

    pub fn encode(self) -> [u8; 2] {
        self.0.to_le_bytes()
    }

    pub fn check_range(self, scope: Scope) -> Result<(), Flaw> {
        within("target type", self.0, 0..scope.types + 1)
    }
}

impl HomeRow {
    pub fn decode([t0, t1, s0, s1]: [u8; 4]) -> HomeRow {
        HomeRow {
            of: Type(u16::from_le_bytes([t0, t1])),
            size: u16::from_le_bytes([s0, s1]),
        }
    }

    pub fn encode(self) -> [u8; 4] {
        let [t0, t1] = self.of.0.to_le_bytes();
        let [s0, s1] = self.size.to_le_bytes();
        [t0, t1, s0, s1]
    }

    pub fn check_range(self, scope: Scope) -> Result<(), Flaw> {
        within("type", self.of.0, 1..scope.types + 1)?;
        within("size", self.size, 1..usize::from(LARGEST_HOME) + 1)
    }
}

impl Expression {
    /// The row's meaning, its numbers not yet held against their ranges.
    pub fn decode([tag, a0, a1, b0, b1]: [u8; 5]) -> Result<Expression, Flaw> {
        let a = u16::from_le_bytes([a0, a1]);
        let b = u16::from_le_bytes([b0, b1]);
        match tag {
            0 => Ok(Expression::Literal(u32::from(a) | u32::from(b) << 16)),
            1 => zero("b", b).map(|()| Expression::Home(Home(a))),
            3 => Ok(Expression::Cast {
                value: Expr(a),
                to: Type(b),
            }),
            4 => zero("b", b).map(|()| Expression::Null(Type(a))),
            5 => Ok(Expression::Sum {
                pointer: Expr(a),
                offset: Expr(b),
            }),
            6 => zero("b", b).map(|()| Expression::Read { pointer: Expr(a) }),
            _ => match Operator::from_tag(tag) {
                Some(operator) => Ok(Expression::Operation(operator, Expr(a), Expr(b))),
                None => Err(Flaw::UnknownTag(tag)),
            },
        }
    }

    pub fn encode(self) -> [u8; 5] {
        let (tag, a, b) = match self {
            Expression::Literal(n) => (0, n as u16, (n >> 16) as u16),
            Expression::Home(home) => (1, home.0, 0),
            Expression::Cast { value, to } => (3, value.0, to.0),
            Expression::Null(of) => (4, of.0, 0),
            Expression::Sum { pointer, offset } => (5, pointer.0, offset.0),
            Expression::Read { pointer } => (6, pointer.0, 0),
            Expression::Operation(operator, a, b) => (operator.tag(), a.0, b.0),
        };
        let [a0, a1] = a.to_le_bytes();
        let [b0, b1] = b.to_le_bytes();
        [tag, a0, a1, b0, b1]
    }

    pub fn check_range(self, scope: Scope) -> Result<(), Flaw> {
        let earlier = |field, e: Expr| within(field, e.0, 0..scope.expressions);
        match self {
            Expression::Literal(_) => Ok(()),
            Expression::Home(home) => within("home", home.0, 1..scope.homes + 1),
            Expression::Cast { value, to } => {
                earlier("expression a", value)?;
                within("type b", to.0, 0..scope.types + 1)
            }
            Expression::Null(of) => within("type a", of.0, 1..scope.types + 1),
            Expression::Sum { pointer, offset } => {
                earlier("expression a", pointer)?;
                earlier("expression b", offset)
            }
            Expression::Read { pointer } => earlier("expression a", pointer),
            Expression::Operation(_, a, b) => {
                earlier("expression a", a)?;
                earlier("expression b", b)
            }
        }
    }
}

impl Command {
    /// The row's meaning, its numbers not yet held against their ranges.
    pub fn decode([tag, a0, a1, b0, b1, c0, c1]: [u8; 7]) -> Result<Command, Flaw> {
        let a = u16::from_le_bytes([a0, a1]);
        let b = u16::from_le_bytes([b0, b1]);
        let c = u16::from_le_bytes([c0, c1]);
        let command = match tag {
            0 => {
                zero("a", a)?;
                zero("b", b)?;
                Command::Skip
            }
            1 => Command::Then(Cmd(a), Cmd(b)),
            2 => Command::Store {
                pointer: Expr(a),
                value: Expr(b),
            },
            3 => {
                return Ok(Command::If {
                    condition: Expr(a),
                    then: Cmd(b),
                    otherwise: Cmd(c),
                })
            }
            4 => Command::While {
                condition: Expr(a),
                body: Cmd(b),
            },
            _ => return Err(Flaw::UnknownTag(tag)),
        };
        zero("c", c)?;
        Ok(command)
    }

    pub fn encode(self) -> [u8; 7] {
        let (tag, a, b, c) = match self {
            Command::Skip => (0, 0, 0, 0),
            Command::Then(first, second) => (1, first.0, second.0, 0),
            Command::Store { pointer, value } => (2, pointer.0, value.0, 0),
            Command::If {
                condition,
                then,
                otherwise,
            } => (3, condition.0, then.0, otherwise.0),
            Command::While { condition, body } => (4, condition.0, body.0, 0),
        };
        let [a0, a1] = a.to_le_bytes();
        let [b0, b1] = b.to_le_bytes();
        let [c0, c1] = c.to_le_bytes();
        [tag, a0, a1, b0, b1, c0, c1]
    }

    pub fn check_range(self, scope: Scope) -> Result<(), Flaw> {
        let expression = |field, e: Expr| within(field, e.0, 0..scope.expressions);
        let earlier = |field, c: Cmd| within(field, c.0, 0..scope.commands);
        match self {
            Command::Skip => Ok(()),
            Command::Then(first, second) => {
                earlier("command a", first)?;
                earlier("command b", second)
            }
            Command::Store { pointer, value } => {
                expression("expression a", pointer)?;
                expression("expression b", value)
            }
            Command::If {
                condition,
                then,
                otherwise,
            } => {
                expression("expression a", condition)?;
                earlier("command b", then)?;
                earlier("command c", otherwise)
            }
            Command::While { condition, body } => {
                expression("expression a", condition)?;
                earlier("command b", body)
            }
        }
    }
}

impl StartValue {
    pub fn decode([h0, h1, c0, c1, v0, v1, v2, v3]: [u8; 8]) -> StartValue {
        StartValue {
            home: Home(u16::from_le_bytes([h0, h1])),
            cell: u16::from_le_bytes([c0, c1]),
            value: u32::from_le_bytes([v0, v1, v2, v3]),
        }
    }

    pub fn encode(self) -> [u8; 8] {
        let [h0, h1] = self.home.0.to_le_bytes();
        let [c0, c1] = self.cell.to_le_bytes();
        let [v0, v1, v2, v3] = self.value.to_le_bytes();
        [h0, h1, c0, c1, v0, v1, v2, v3]
    }

    /// The home is one of these, and the cell one of its cells.
    pub fn check_range(self, homes: &[HomeRow]) -> Result<(), Flaw> {
        within("home", self.home.0, 1..homes.len() + 1)?;
        let size = homes[usize::from(self.home.0) - 1].size;
        within("cell", self.cell, 0..usize::from(size))
    }

    /// What rises strictly from row to row.
    pub fn position(self) -> (Home, u16) {
        (self.home, self.cell)
    }
}
