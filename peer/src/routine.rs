//! A well-formed routine: its rows in vectors, where each stands in the file,
//! and the type of every expression.

use crate::rows::{
    Cmd, Command, Expr, Expression, Home, HomeRow, Section, Start, StartValue, Type,
};

#[derive(Clone, Debug, PartialEq, Eq)]
pub struct Routine {
    /// The target of each type row; type t stands at t - 1.
    pub(crate) targets: Vec<Type>,
    /// Home g stands at g - 1.
    pub(crate) homes: Vec<HomeRow>,
    pub(crate) expressions: Vec<Expression>,
    pub(crate) commands: Vec<Command>,
    /// None where the file stops after the commands.
    pub(crate) start_values: Option<Vec<StartValue>>,
    /// The type of each expression.
    pub(crate) types_of: Vec<Type>,
    /// The places of the five counts.
    pub(crate) starts: [usize; 5],
}

impl Routine {
    pub fn type_count(&self) -> usize {
        self.targets.len()
    }

    /// All type rows' numbers.
    pub fn types(&self) -> impl Iterator<Item = Type> {
        (1..=self.targets.len()).map(|t| Type(t as u16))
    }

    /// What a reference refers to; none for int.
    pub fn target(&self, t: Type) -> Option<Type> {
        let row = usize::from(t.0).checked_sub(1)?;
        Some(self.targets[row])
    }

    pub fn home(&self, home: Home) -> HomeRow {
        self.homes[usize::from(home.0) - 1]
    }

    pub fn homes(&self) -> impl Iterator<Item = (Home, HomeRow)> + '_ {
        (1..).map(Home).zip(self.homes.iter().copied())
    }

    /// The type of a home's cells.
    pub fn element(&self, home: HomeRow) -> Type {
        self.targets[usize::from(home.of.0) - 1]
    }

    /// The number of cells of all homes.
    pub fn cells(&self) -> usize {
        self.homes.iter().map(|home| usize::from(home.size)).sum()
    }

    pub fn expression(&self, e: Expr) -> Expression {
        self.expressions[usize::from(e.0)]
    }

    pub fn expressions(&self) -> impl Iterator<Item = (Expr, Expression)> + '_ {
        (0..).map(Expr).zip(self.expressions.iter().copied())
    }

    pub fn type_of(&self, e: Expr) -> Type {
        self.types_of[usize::from(e.0)]
    }

    pub fn command(&self, c: Cmd) -> Command {
        self.commands[usize::from(c.0)]
    }

    pub fn commands(&self) -> impl Iterator<Item = (Cmd, Command)> + '_ {
        (0..).map(Cmd).zip(self.commands.iter().copied())
    }

    /// The last command.
    pub fn body(&self) -> Cmd {
        Cmd(self.commands.len() as u16 - 1)
    }

    /// Is there a fifth section, even one of no rows?
    pub fn has_values(&self) -> bool {
        self.start_values.is_some()
    }

    pub fn start_values(&self) -> impl Iterator<Item = (Start, StartValue)> + '_ {
        let rows = self.start_values.iter().flatten().copied();
        (0..).map(Start).zip(rows)
    }

    /// The places of the five counts; the last is the file's end where there
    /// is no fifth section.
    pub fn starts(&self) -> [usize; 5] {
        self.starts
    }

    fn row_place(&self, section: Section, index: usize) -> usize {
        self.starts[section as usize] + 2 + section.row_bytes() * index
    }

    pub fn type_place(&self, t: Type) -> usize {
        self.row_place(Section::Types, usize::from(t.0) - 1)
    }

    pub fn home_place(&self, home: Home) -> usize {
        self.row_place(Section::Homes, usize::from(home.0) - 1)
    }

    pub fn expression_place(&self, e: Expr) -> usize {
        self.row_place(Section::Expressions, usize::from(e.0))
    }

    pub fn command_place(&self, c: Cmd) -> usize {
        self.row_place(Section::Commands, usize::from(c.0))
    }

    pub fn start_place(&self, start: Start) -> usize {
        self.row_place(Section::Values, usize::from(start.0))
    }

    /// The section and the index of the row at this place.
    pub fn row_at(&self, place: usize) -> Option<(Section, usize)> {
        let section = Section::ALL
            .into_iter()
            .rfind(|&section| self.starts[section as usize] < place)?;
        let offset = place.checked_sub(self.starts[section as usize] + 2)?;
        (offset % section.row_bytes() == 0).then_some((section, offset / section.row_bytes()))
    }

    /// The value type and the type it is converted to, for each cast and
    /// then each store.
    pub fn conversions(&self) -> impl Iterator<Item = (Type, Type)> + '_ {
        let casts = self.expressions.iter().filter_map(|row| match *row {
            Expression::Cast { value, to } => Some((self.type_of(value), to)),
            _ => None,
        });
        let stores = self.commands.iter().filter_map(|row| match *row {
            Command::Store { pointer, value } => {
                let to = self.target(self.type_of(pointer))?;
                Some((self.type_of(value), to))
            }
            _ => None,
        });
        casts.chain(stores)
    }
}
