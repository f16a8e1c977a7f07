//! Writing routine files row by row. Each function adds a row and gives its
//! number; nothing is judged.

use crate::routine::Routine;
use crate::rows::{
    Cmd, Command, Expr, Expression, Home, HomeRow, Operator, Start, StartValue, Type,
};

#[derive(Clone, Debug, Default)]
pub struct Builder {
    pub(crate) targets: Vec<Type>,
    pub(crate) homes: Vec<HomeRow>,
    pub(crate) expressions: Vec<Expression>,
    pub(crate) commands: Vec<Command>,
    /// None for a file that stops after the commands.
    pub(crate) start_values: Option<Vec<StartValue>>,
}

impl Builder {
    pub fn new() -> Builder {
        Builder::default()
    }

    /// The type "reference to target".
    pub fn reference(&mut self, target: Type) -> Type {
        self.targets.push(target);
        Type(self.targets.len() as u16)
    }

    pub fn home(&mut self, of: Type, size: u16) -> Home {
        self.homes.push(HomeRow { of, size });
        Home(self.homes.len() as u16)
    }

    pub fn expression(&mut self, row: Expression) -> Expr {
        self.expressions.push(row);
        Expr(self.expressions.len() as u16 - 1)
    }

    pub fn command(&mut self, row: Command) -> Cmd {
        self.commands.push(row);
        Cmd(self.commands.len() as u16 - 1)
    }

    pub fn start_value(&mut self, home: Home, cell: u16, value: u32) -> Start {
        let rows = self.start_values.get_or_insert_with(Vec::new);
        rows.push(StartValue { home, cell, value });
        Start(rows.len() as u16 - 1)
    }

    pub fn literal(&mut self, n: u32) -> Expr {
        self.expression(Expression::Literal(n))
    }

    /// The home as a variable.
    pub fn at(&mut self, home: Home) -> Expr {
        self.expression(Expression::Home(home))
    }

    pub fn cast(&mut self, value: Expr, to: Type) -> Expr {
        self.expression(Expression::Cast { value, to })
    }

    pub fn null(&mut self, of: Type) -> Expr {
        self.expression(Expression::Null(of))
    }

    /// A pointer sum.
    pub fn sum(&mut self, pointer: Expr, offset: Expr) -> Expr {
        self.expression(Expression::Sum { pointer, offset })
    }

    pub fn read(&mut self, pointer: Expr) -> Expr {
        self.expression(Expression::Read { pointer })
    }

    pub fn operation(&mut self, operator: Operator, a: Expr, b: Expr) -> Expr {
        self.expression(Expression::Operation(operator, a, b))
    }

    pub fn skip(&mut self) -> Cmd {
        self.command(Command::Skip)
    }

    pub fn then(&mut self, first: Cmd, second: Cmd) -> Cmd {
        self.command(Command::Then(first, second))
    }

    pub fn store(&mut self, pointer: Expr, value: Expr) -> Cmd {
        self.command(Command::Store { pointer, value })
    }

    pub fn choose(&mut self, condition: Expr, then: Cmd, otherwise: Cmd) -> Cmd {
        self.command(Command::If {
            condition,
            then,
            otherwise,
        })
    }

    pub fn repeat(&mut self, condition: Expr, body: Cmd) -> Cmd {
        self.command(Command::While { condition, body })
    }

    /// One command after the other; skip for none.
    pub fn sequence(&mut self, commands: &[Cmd]) -> Cmd {
        match commands.split_first() {
            None => self.skip(),
            Some((&first, rest)) => rest.iter().fold(first, |done, &next| self.then(done, next)),
        }
    }

    /// The file's bytes.
    pub fn file(&self) -> Vec<u8> {
        let mut file = Vec::new();
        let count = |rows: usize| (rows as u16).to_le_bytes();
        file.extend(count(self.targets.len()));
        file.extend(self.targets.iter().flat_map(|row| row.encode()));
        file.extend(count(self.homes.len()));
        file.extend(self.homes.iter().flat_map(|row| row.encode()));
        file.extend(count(self.expressions.len()));
        file.extend(self.expressions.iter().flat_map(|row| row.encode()));
        file.extend(count(self.commands.len()));
        file.extend(self.commands.iter().flat_map(|row| row.encode()));
        if let Some(rows) = &self.start_values {
            file.extend(count(rows.len()));
            file.extend(rows.iter().flat_map(|row| row.encode()));
        }
        file
    }
}

/// The rows of a routine, to be written again or added to.
impl From<&Routine> for Builder {
    fn from(routine: &Routine) -> Builder {
        Builder {
            targets: routine.targets.clone(),
            homes: routine.homes.clone(),
            expressions: routine.expressions.clone(),
            commands: routine.commands.clone(),
            start_values: routine.start_values.clone(),
        }
    }
}
