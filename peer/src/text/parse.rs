//! From text to bytes.

use std::fmt;

use super::names::row_name;
use crate::rows::{
    Cmd, Command, Expr, Expression, Home, HomeRow, Operator, Section, StartValue, Type,
};

/// What is wrong with a text, and in which line, from 1.
#[derive(Clone, Debug, PartialEq, Eq)]
pub struct TextError {
    pub line: usize,
    pub message: String,
}

impl fmt::Display for TextError {
    fn fmt(&self, f: &mut fmt::Formatter<'_>) -> fmt::Result {
        write!(f, "line {}: {}", self.line, self.message)
    }
}

impl std::error::Error for TextError {}

/// The file that a text stands for. It need not be well-formed.
pub fn parse(text: &str) -> Result<Vec<u8>, TextError> {
    let mut parser = Parser {
        file: Vec::new(),
        open: None,
    };
    for (index, line) in text.lines().enumerate() {
        let meant = line.split('#').next().unwrap_or("");
        let words: Vec<&str> = meant.split_whitespace().collect();
        parser.line(&words).map_err(|message| TextError {
            line: index + 1,
            message,
        })?;
    }
    parser.close();
    Ok(parser.file)
}

struct Parser {
    file: Vec<u8>,
    open: Option<Open>,
}

/// The section that rows are being added to.
struct Open {
    section: Section,
    /// The place of its count.
    start: usize,
    /// The count, if the header gives it.
    count: Option<u16>,
    rows: usize,
}

impl Parser {
    fn line(&mut self, words: &[&str]) -> Result<(), String> {
        match words {
            [] => Ok(()),
            ["bytes", bytes @ ..] => {
                for byte in bytes {
                    let byte = u8::from_str_radix(byte, 16)
                        .map_err(|_| format!("`{byte}` is no byte in hexadecimal"))?;
                    self.file.push(byte);
                }
                Ok(())
            }
            [name, "=", row @ ..] => self.row(name, row),
            [header] => self.header(header, None),
            [header, count] => {
                let count = number(count)?;
                self.header(header, Some(count))
            }
            _ => Err("neither a section, nor a row such as `e0 = literal 7`, nor bytes".into()),
        }
    }

    fn header(&mut self, header: &str, count: Option<u16>) -> Result<(), String> {
        let Some(section) = Section::ALL.into_iter().find(|s| s.name() == header) else {
            return Err(format!("`{header}` is no section"));
        };
        if let Some(open) = &self.open {
            if open.section >= section {
                return Err(format!(
                    "the {} stand before the {}",
                    section.name(),
                    open.section.name()
                ));
            }
        }
        self.close();
        self.open = Some(Open {
            section,
            start: self.file.len(),
            count,
            rows: 0,
        });
        self.file.extend([0, 0]);
        Ok(())
    }

    /// Writes the count of the open section.
    fn close(&mut self) {
        if let Some(open) = self.open.take() {
            let count = open.count.unwrap_or(open.rows as u16);
            self.file[open.start..open.start + 2].copy_from_slice(&count.to_le_bytes());
        }
    }

    fn row(&mut self, name: &str, row: &[&str]) -> Result<(), String> {
        let Some(open) = &mut self.open else {
            return Err(format!("`{name}` stands in no section"));
        };
        let expected = row_name(open.section, open.rows);
        if name != expected {
            return Err(format!("the next row is `{expected}`, not `{name}`"));
        }
        if open.rows == usize::from(u16::MAX) {
            return Err("more rows than a count can tell".into());
        }
        open.rows += 1;
        match (open.section, row) {
            (Section::Expressions, ["row", numbers @ ..]) => self.raw(numbers, 2),
            (Section::Commands, ["row", numbers @ ..]) => self.raw(numbers, 3),
            (Section::Types, row) => {
                self.file.extend(type_row(row)?.encode());
                Ok(())
            }
            (Section::Homes, row) => {
                self.file.extend(home_row(row)?.encode());
                Ok(())
            }
            (Section::Expressions, row) => {
                self.file.extend(expression(row)?.encode());
                Ok(())
            }
            (Section::Commands, row) => {
                self.file.extend(command(row)?.encode());
                Ok(())
            }
            (Section::Values, row) => {
                self.file.extend(start_value(row)?.encode());
                Ok(())
            }
        }
    }

    /// A row by its tag and fields.
    fn raw(&mut self, numbers: &[&str], fields: usize) -> Result<(), String> {
        match numbers {
            [tag, rest @ ..] if rest.len() == fields => {
                self.file.push(number(tag)?);
                for field in rest {
                    self.file.extend(number::<u16>(field)?.to_le_bytes());
                }
                Ok(())
            }
            _ => Err(format!("a `row` here has a tag and {fields} fields")),
        }
    }
}

fn type_row(row: &[&str]) -> Result<Type, String> {
    match row {
        ["ref", target] => type_name(target),
        _ => Err("a type is `ref int` or `ref t1`".into()),
    }
}

fn home_row(row: &[&str]) -> Result<HomeRow, String> {
    match row {
        [of, "size", size] => Ok(HomeRow {
            of: type_name(of)?,
            size: number(size)?,
        }),
        _ => Err("a home is a type and its size, such as `t1 size 3`".into()),
    }
}

fn expression(row: &[&str]) -> Result<Expression, String> {
    Ok(match row {
        ["literal", n] => Expression::Literal(number(n)?),
        ["home", home] => Expression::Home(home_name(home)?),
        ["cast", value, "to", to] => Expression::Cast {
            value: expr(value)?,
            to: type_name(to)?,
        },
        ["null", of] => Expression::Null(type_name(of)?),
        ["sum", pointer, "plus", offset] => Expression::Sum {
            pointer: expr(pointer)?,
            offset: expr(offset)?,
        },
        ["read", "through", pointer] => Expression::Read {
            pointer: expr(pointer)?,
        },
        [a, symbol, b] => {
            let operator = Operator::ALL
                .into_iter()
                .find(|operator| operator.symbol() == *symbol)
                .ok_or_else(|| format!("`{symbol}` is no operator"))?;
            Expression::Operation(operator, expr(a)?, expr(b)?)
        }
        _ => {
            return Err(
                "an expression is `literal 7`, `home h1`, `cast e0 to t1`, `null t1`, \
                        `sum e0 plus e1`, `read through e0` or `e0 + e1`"
                    .into(),
            )
        }
    })
}

fn command(row: &[&str]) -> Result<Command, String> {
    Ok(match row {
        ["skip"] => Command::Skip,
        [first, "then", second] => Command::Then(cmd(first)?, cmd(second)?),
        ["store", "through", pointer, "value", value] => Command::Store {
            pointer: expr(pointer)?,
            value: expr(value)?,
        },
        ["if", condition, "then", then, "else", otherwise] => Command::If {
            condition: expr(condition)?,
            then: cmd(then)?,
            otherwise: cmd(otherwise)?,
        },
        ["while", condition, "do", body] => Command::While {
            condition: expr(condition)?,
            body: cmd(body)?,
        },
        _ => {
            return Err(
                "a command is `skip`, `c0 then c1`, `store through e0 value e1`, \
                        `if e0 then c0 else c1` or `while e0 do c0`"
                    .into(),
            )
        }
    })
}

fn start_value(row: &[&str]) -> Result<StartValue, String> {
    match row {
        ["home", home, "cell", cell, "value", value] => Ok(StartValue {
            home: home_name(home)?,
            cell: number(cell)?,
            value: number(value)?,
        }),
        _ => Err("a start value is `home h1 cell 2 value 7`".into()),
    }
}

/// A decimal number, or one in hexadecimal after `0x`.
fn number<T: TryFrom<u32>>(word: &str) -> Result<T, String> {
    let number = match word.strip_prefix("0x") {
        Some(digits) => u32::from_str_radix(digits, 16),
        None => word.parse(),
    };
    let number = number.map_err(|_| format!("`{word}` is no number"))?;
    T::try_from(number).map_err(|_| format!("{number} is too large here"))
}

/// The number of a row that is named by a letter and its number.
fn numbered(letter: &str, what: &str, word: &str) -> Result<u16, String> {
    word.strip_prefix(letter)
        .and_then(|digits| digits.parse().ok())
        .ok_or_else(|| format!("`{word}` is no {what} such as `{letter}1`"))
}

fn type_name(word: &str) -> Result<Type, String> {
    if word == "int" {
        return Ok(Type::INT);
    }
    numbered("t", "type", word).map(Type)
}

fn home_name(word: &str) -> Result<Home, String> {
    numbered("h", "home", word).map(Home)
}

fn expr(word: &str) -> Result<Expr, String> {
    numbered("e", "expression", word).map(Expr)
}

fn cmd(word: &str) -> Result<Cmd, String> {
    numbered("c", "command", word).map(Cmd)
}
