//! How types and rows are called in texts: `int`, `t1`, `h1`, `e0`, `c0`, `v0`.

use std::fmt;

use crate::rows::{Cmd, Expr, Home, Section, Start, Type};

/// The name of the row at this index, from 0, of a section.
pub fn row_name(section: Section, index: usize) -> String {
    let letter = &section.name()[..1];
    format!("{letter}{}", section.first_number() + index)
}

impl fmt::Display for Type {
    fn fmt(&self, f: &mut fmt::Formatter<'_>) -> fmt::Result {
        match self.0 {
            0 => f.write_str("int"),
            number => write!(f, "t{number}"),
        }
    }
}

impl fmt::Display for Home {
    fn fmt(&self, f: &mut fmt::Formatter<'_>) -> fmt::Result {
        write!(f, "h{}", self.0)
    }
}

impl fmt::Display for Expr {
    fn fmt(&self, f: &mut fmt::Formatter<'_>) -> fmt::Result {
        write!(f, "e{}", self.0)
    }
}

impl fmt::Display for Cmd {
    fn fmt(&self, f: &mut fmt::Formatter<'_>) -> fmt::Result {
        write!(f, "c{}", self.0)
    }
}

impl fmt::Display for Start {
    fn fmt(&self, f: &mut fmt::Formatter<'_>) -> fmt::Result {
        write!(f, "v{}", self.0)
    }
}
