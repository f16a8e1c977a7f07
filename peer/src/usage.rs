//! The subcommands: what each is given, does and prints.

use std::fmt;
use std::ops::RangeInclusive;

use crate::arguments::Arguments;
use crate::Done;

pub struct Subcommand {
    pub name: &'static str,
    /// The words that follow the name.
    pub words: &'static str,
    pub options: &'static [&'static str],
    /// How many plain words it takes.
    pub plain: RangeInclusive<usize>,
    /// What it does, in a line.
    pub does: &'static str,
    /// What else a person asks about it.
    pub more: &'static str,
    pub act: fn(&Arguments) -> Done,
}

impl Subcommand {
    fn call(&self) -> String {
        format!("peer {} {}", self.name, self.words)
            .trim_end()
            .to_string()
    }

    /// How it is called.
    pub fn usage(&self) -> String {
        format!("usage: {}", self.call())
    }
}

/// What `--help` after the subcommand prints.
impl fmt::Display for Subcommand {
    fn fmt(&self, f: &mut fmt::Formatter<'_>) -> fmt::Result {
        writeln!(f, "{}", self.usage())?;
        writeln!(f, "{}", self.does)?;
        if !self.more.is_empty() {
            writeln!(f, "\n{}", self.more)?;
        }
        Ok(())
    }
}

/// What `peer --help` prints.
pub fn overview(subcommands: &[Subcommand]) -> String {
    const COLUMN: usize = 32;
    let mut text = String::new();
    for (index, subcommand) in subcommands.iter().enumerate() {
        let (call, does) = (subcommand.call(), subcommand.does);
        let start = if index == 0 { "usage:" } else { "" };
        if call.len() < COLUMN {
            text.push_str(&format!("{start:6} {call:COLUMN$}{does}\n"));
        } else {
            text.push_str(&format!("{start:6} {call}\n{:7}{:COLUMN$}{does}\n", "", ""));
        }
    }
    text.push_str(
        "A FILE or MARKING that is `-` is standard input. `peer SUBCOMMAND --help` tells more.\n",
    );
    text
}
