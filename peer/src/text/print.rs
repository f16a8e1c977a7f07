//! From bytes to text.

use std::fmt::{self, Write};

use super::names::row_name;
use crate::reader::read;
use crate::rows::{Command, Expression, HomeRow, Section, StartValue, Type};

/// A decoded row, shown in its text form without its name.
pub enum RowText {
    Type(Type),
    Home(HomeRow),
    Expression(Expression),
    Command(Command),
    StartValue(StartValue),
}

impl fmt::Display for RowText {
    fn fmt(&self, f: &mut fmt::Formatter<'_>) -> fmt::Result {
        match self {
            RowText::Type(target) => write!(f, "ref {target}"),
            RowText::Home(row) => write!(f, "{} size {}", row.of, row.size),
            RowText::Expression(row) => match row {
                Expression::Literal(n) => write!(f, "literal {n}"),
                Expression::Home(home) => write!(f, "home {home}"),
                Expression::Cast { value, to } => write!(f, "cast {value} to {to}"),
                Expression::Null(of) => write!(f, "null {of}"),
                Expression::Sum { pointer, offset } => write!(f, "sum {pointer} plus {offset}"),
                Expression::Read { pointer } => write!(f, "read through {pointer}"),
                Expression::Operation(operator, a, b) => {
                    write!(f, "{a} {} {b}", operator.symbol())
                }
            },
            RowText::Command(row) => match row {
                Command::Skip => f.write_str("skip"),
                Command::Then(first, second) => write!(f, "{first} then {second}"),
                Command::Store { pointer, value } => {
                    write!(f, "store through {pointer} value {value}")
                }
                Command::If {
                    condition,
                    then,
                    otherwise,
                } => write!(f, "if {condition} then {then} else {otherwise}"),
                Command::While { condition, body } => write!(f, "while {condition} do {body}"),
            },
            RowText::StartValue(StartValue { home, cell, value }) => {
                write!(f, "home {home} cell {cell} value {value}")
            }
        }
    }
}

/// The column at which places are written.
const PLACE_COLUMN: usize = 44;

/// The text of a file. Of a file that is refused it shows the rows that are
/// whole, and the rest as bytes.
pub fn print(file: &[u8]) -> String {
    let mut text = match read(file) {
        Ok(_) => format!("# a well-formed routine of {} bytes\n", file.len()),
        Err(refusal) => format!("# {refusal}\n"),
    };
    for Line { line, place } in Page::of(file).lines {
        let _ = writeln!(text, "{line:PLACE_COLUMN$} # {place}");
    }
    text
}

/// The text of the whole row that begins at this place, with its name.
pub fn row_at(file: &[u8], place: usize) -> Option<String> {
    let lines = Page::of(file).lines;
    let line = lines.into_iter().find(|line| line.place == place)?;
    line.line.strip_prefix(ROW_INDENT).map(str::to_string)
}

/// What rows begin with, and no other line.
const ROW_INDENT: &str = "  ";

struct Line {
    line: String,
    place: usize,
}

struct Page {
    lines: Vec<Line>,
    /// The place of the first byte that is not yet on the page.
    place: usize,
}

impl Page {
    fn of(file: &[u8]) -> Page {
        let mut page = Page {
            lines: Vec::new(),
            place: 0,
        };
        for section in Section::ALL {
            if !page.section(section, &file[page.place..]) {
                break;
            }
        }
        page.bytes(&file[page.place..]);
        page
    }

    /// A line for so many bytes.
    fn line(&mut self, line: String, bytes: usize) {
        let place = self.place;
        self.lines.push(Line { line, place });
        self.place += bytes;
    }

    /// A section from the start of `rest`; false where the bytes go on as no
    /// further section.
    fn section(&mut self, section: Section, rest: &[u8]) -> bool {
        let Some((count, rest)) = rest.split_first_chunk() else {
            return false;
        };
        let count = u16::from_le_bytes(*count);
        let mut whole = rest.len() / section.row_bytes();
        if count > section.limit() {
            whole = 0;
        }
        let rows = whole.min(usize::from(count));
        let complete = rows == usize::from(count);
        if complete {
            self.line(section.name().to_string(), 2);
        } else {
            self.line(format!("{} {count}", section.name()), 2);
        }
        for (index, row) in rest.chunks(section.row_bytes()).take(rows).enumerate() {
            self.line(row_line(section, index, row), row.len());
        }
        complete
    }

    fn bytes(&mut self, rest: &[u8]) {
        for bytes in rest.chunks(16) {
            let mut line = String::from("bytes");
            for byte in bytes {
                let _ = write!(line, " {byte:02x}");
            }
            self.line(line, bytes.len());
        }
    }
}

fn row_line(section: Section, index: usize, row: &[u8]) -> String {
    let mut line = format!("{ROW_INDENT}{} = ", row_name(section, index));
    let _ = match decode(section, row) {
        Some(text) => write!(line, "{text}"),
        None => write!(line, "{}", raw(row)),
    };
    line
}

/// None for a row that has no text form of its own.
fn decode(section: Section, row: &[u8]) -> Option<RowText> {
    match section {
        Section::Types => row.try_into().ok().map(Type::decode).map(RowText::Type),
        Section::Homes => row.try_into().ok().map(HomeRow::decode).map(RowText::Home),
        Section::Expressions => {
            let row = Expression::decode(row.try_into().ok()?).ok()?;
            Some(RowText::Expression(row))
        }
        Section::Commands => {
            let row = Command::decode(row.try_into().ok()?).ok()?;
            Some(RowText::Command(row))
        }
        Section::Values => {
            let row = StartValue::decode(row.try_into().ok()?);
            Some(RowText::StartValue(row))
        }
    }
}

/// A tagged row as its numbers.
fn raw(row: &[u8]) -> String {
    let (tag, fields) = row.split_first().unwrap_or((&0, &[]));
    let mut text = format!("row {tag}");
    for field in fields.chunks_exact(2) {
        let _ = write!(text, " {}", u16::from_le_bytes([field[0], field[1]]));
    }
    text
}
