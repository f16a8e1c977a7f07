//! The words after a subcommand: options with a value, and plain words.

use std::collections::BTreeMap;
use std::ops::RangeInclusive;
use std::str::FromStr;

pub struct Arguments {
    options: BTreeMap<String, String>,
    plain: Vec<String>,
}

impl Arguments {
    /// Takes the words apart; only these options are known, and so many plain
    /// words are taken.
    pub fn parse(
        words: Vec<String>,
        known: &[&str],
        plain: RangeInclusive<usize>,
    ) -> Result<Arguments, String> {
        let mut arguments = Arguments {
            options: BTreeMap::new(),
            plain: Vec::new(),
        };
        let mut words = words.into_iter();
        while let Some(word) = words.next() {
            if !word.starts_with("--") {
                arguments.plain.push(word);
            } else if known.contains(&word.as_str()) {
                let value = words.next().ok_or(format!("{word} needs a value"))?;
                arguments.options.insert(word, value);
            } else {
                return Err(format!("unknown option {word}"));
            }
        }
        if arguments.plain.len() < *plain.start() {
            Err("a file name is missing".to_string())
        } else if let Some(word) = arguments.plain.get(*plain.end()) {
            Err(format!("`{word}` is one word too many"))
        } else {
            Ok(arguments)
        }
    }

    pub fn text(&self, option: &str) -> Option<&str> {
        self.options.get(option).map(String::as_str)
    }

    pub fn number<T: FromStr>(&self, option: &str) -> Result<Option<T>, String> {
        self.text(option)
            .map(|value| {
                value
                    .parse()
                    .map_err(|_| format!("{option} {value}: not a number, or too large"))
            })
            .transpose()
    }

    /// The plain words.
    pub fn plain(&self) -> &[String] {
        &self.plain
    }
}
