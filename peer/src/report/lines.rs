//! The lines of the report: their words, and which of them there are.

use crate::kind::Kind;
use crate::refusal::{Due, Fall, KindRule, Lent, Needed, Reason, Refusal};
use crate::rows::{Command, Expression, Flaw, Operator, Section, LONGEST_FILE};
use crate::run::Check;

pub fn request(letter: char) -> String {
    format!("request {letter}")
}

pub fn refused(letter: char, number: u8) -> String {
    format!("{letter} refused {number}")
}

pub fn outcome(outcome: &str) -> String {
    format!("outcome {outcome}")
}

pub fn fuel(row: &str) -> String {
    format!("outcome fuel, before a row of {row}")
}

pub fn lent(lent: Lent, surplus: bool) -> String {
    let lent = match lent {
        Lent::Marking => "marking",
        Lent::Memory => "memory",
    };
    let length = if surplus { "long" } else { "exact" };
    format!("lent {lent} is {length}")
}

pub fn kind(when: &str, kind: Kind) -> String {
    format!("types {when} {kind}")
}

fn name(kind: Option<Kind>) -> String {
    kind.map_or("int".to_string(), |kind| kind.to_string())
}

pub fn conversion(row: &str, from: Option<Kind>, to: Option<Kind>) -> String {
    format!("rows that {row} {} to {}", name(from), name(to))
}

pub fn access(row: &str, through: Option<Kind>, target: Option<Kind>) -> String {
    format!("rows that {row} {} through {}", name(target), name(through))
}

pub fn check(check: Check, row: &str, through: Option<Kind>) -> String {
    let number = check.number();
    let through = name(through);
    match check {
        Check::Divisor => format!("check {number} at {row}"),
        Check::ConversionBounds if row == "cast" => format!("check {number} at cast to SAFE"),
        Check::ConversionBounds => {
            format!("check {number} at {row} through {through}, its value converted to SAFE")
        }
        _ => format!("check {number} at {row} through {through}"),
    }
}

/// A row that a run can stop at.
#[derive(Clone, Copy)]
pub enum Row {
    Expression(Expression),
    Command(Command),
}

impl Row {
    pub fn name(self) -> &'static str {
        match self {
            Row::Expression(Expression::Literal(_)) => "literal",
            Row::Expression(Expression::Home(_)) => "home",
            Row::Expression(Expression::Cast { .. }) => "cast",
            Row::Expression(Expression::Null(_)) => "null",
            Row::Expression(Expression::Sum { .. }) => "pointer sum",
            Row::Expression(Expression::Read { .. }) => "read",
            Row::Expression(Expression::Operation(..)) => "operator",
            Row::Command(Command::Skip) => "skip",
            Row::Command(Command::Then(..)) => "then",
            Row::Command(Command::Store { .. }) => "store",
            Row::Command(Command::If { .. }) => "if",
            Row::Command(Command::While { .. }) => "while",
        }
    }

    /// An operator by its symbol, other rows by name.
    pub fn symbol(self) -> &'static str {
        match self {
            Row::Expression(Expression::Operation(operator, ..)) => operator.symbol(),
            row => row.name(),
        }
    }
}

/// The name of the row that this tag has, in a section that has tags.
fn tag_name(section: Section, tag: u8) -> &'static str {
    match section {
        Section::Expressions => match Expression::decode([tag, 0, 0, 0, 0]) {
            Ok(expression) => Row::Expression(expression).name(),
            Err(_) => "unknown",
        },
        Section::Commands => match Command::decode([tag, 0, 0, 0, 0, 0, 0]) {
            Ok(command) => Row::Command(command).name(),
            Err(_) => "unknown",
        },
        Section::Types => "type",
        Section::Homes => "home row",
        Section::Values => section.row_name(),
    }
}

fn flaw_line(row: &str, field: &str, wrong: &str) -> String {
    format!("refused 3, {row}: {field} {wrong}")
}

const UNKNOWN: &str = "unknown";
const UNUSED: &str = "not zero";
const OUTSIDE: &str = "outside its range";

fn shape_line(row: &str, needed: Needed) -> String {
    let needed = match needed {
        Needed::Int => "an int",
        Needed::Reference => "a reference",
    };
    format!("refused 6, {row}: needs {needed}")
}

fn cut_line(section: Section, due: Due) -> String {
    match due {
        Due::Count => format!("refused 1, the count of {}", section.name()),
        Due::Row => format!("refused 1, a row of {}", section.name()),
    }
}

fn kind_rule_line(rule: KindRule) -> String {
    let rule = match rule {
        KindRule::DynamicTarget => "a type",
        KindRule::SumNotSafe => "a pointer sum",
        KindRule::CastConverts => "a cast",
        KindRule::StoreConverts => "a store",
    };
    format!("refused 8, {rule}")
}

fn fall_line(fall: Fall) -> String {
    let fall = match fall {
        Fall::SameCell => "the same cell",
        Fall::LowerCell => "a lower cell",
        Fall::LowerHome => "a lower home",
    };
    format!("refused 10, {fall}")
}

/// The refusals after 4, and of 6 the section.
fn earned(refusal: &Refusal) -> String {
    match refusal.reason {
        Reason::Shape(section, _) => format!("6 of {}", section.name()),
        _ => refusal.number().to_string(),
    }
}

/// One refusal is given, and a later one is earned too.
pub fn clash(given: &Refusal, other: &Refusal) -> String {
    clash_line(&earned(given), &earned(other))
}

fn clash_line(given: &str, other: &str) -> String {
    format!("refused {given}, where {other} is earned too")
}

/// A file of the longest length, or one that is longer.
pub fn long_file(longer: bool) -> String {
    let length = if longer { "over" } else { "of" };
    format!("files {length} {LONGEST_FILE} bytes")
}

/// A well-formed file by its fifth section.
pub fn section(there: bool) -> String {
    let section = if there { "a" } else { "no" };
    format!("well-formed files with {section} section of values")
}

/// A well-formed file with so many start values, which are none or the most.
pub fn values(count: usize) -> String {
    format!("well-formed files with a section of {count} values")
}

pub fn value_in(home: Option<Kind>) -> String {
    format!("values in a {} home", name(home))
}

pub const VALUES_AND_NO_FUEL: &str = "runs of values with fuel 0";
pub const VALUES_MATTER: &str = "runs that end otherwise without their values";

pub fn reason(refusal: &Refusal, file: &[u8]) -> String {
    let tag = file.get(refusal.place).copied().unwrap_or(0);
    match refusal.reason {
        Reason::CutShort(section, due) => cut_line(section, due),
        Reason::OverLimit(section, _) => format!("refused 2, too many {}", section.name()),
        Reason::NoCommands => "refused 2, no commands".to_string(),
        Reason::BadRow(section, flaw) => match flaw {
            Flaw::UnknownTag(_) => flaw_line(section.row_name(), "tag", UNKNOWN),
            Flaw::Unused(field) => flaw_line(tag_name(section, tag), field, UNUSED),
            Flaw::OutOfRange(field, _) => flaw_line(tag_name(section, tag), field, OUTSIDE),
        },
        Reason::SpareBytes => "refused 4, spare bytes".to_string(),
        Reason::TooManyCells => "refused 5, too many cells".to_string(),
        Reason::NotRising(fall) => fall_line(fall),
        Reason::Shape(section, needed) => shape_line(tag_name(section, tag), needed),
        Reason::MarkingLength { given, types } if given < types => {
            "refused 7, marking too short".to_string()
        }
        Reason::MarkingLength { .. } => "refused 7, marking too long".to_string(),
        Reason::MarkingByte(_) => "refused 7, marking byte".to_string(),
        Reason::Kind(rule) => kind_rule_line(rule),
        Reason::TooShort(Lent::Marking) => "refused 9, lent marking".to_string(),
        Reason::TooShort(Lent::Memory) => "refused 9, lent memory".to_string(),
    }
}

/// All that can be reached, in the order of the report.
pub fn all() -> Vec<String> {
    let mut lines = Vec::new();
    let letters: [(char, &[u8]); 4] = [
        ('R', &[1, 2, 3, 4, 5, 6, 10]),
        ('I', &[1, 2, 3, 4, 5, 6, 9, 10]),
        ('C', &[1, 2, 3, 4, 5, 6, 7, 8, 10]),
        ('X', &[1, 2, 3, 4, 5, 6, 7, 8, 9, 10]),
    ];
    for (letter, _) in letters {
        lines.push(request(letter));
    }
    for (letter, numbers) in letters {
        lines.extend(numbers.iter().map(|&number| refused(letter, number)));
    }
    lines.extend(reason_lines());
    lines.extend(clash_lines());
    lines.extend(["read", "marked", "accepted", "done"].map(outcome));
    lines.extend(
        [
            "literal",
            "home",
            "cast",
            "null",
            "pointer sum",
            "read",
            "operator",
            "skip",
            "then",
            "store",
            "if",
            "while",
        ]
        .map(fuel),
    );
    lines.extend(check_lines());
    for when in ["inferred", "accepted", "run"] {
        lines.extend(Kind::ALL.map(|k| kind(when, k)));
    }
    lines.extend(row_lines());
    for buffer in [Lent::Marking, Lent::Memory] {
        lines.extend([false, true].map(|surplus| lent(buffer, surplus)));
    }
    lines.extend(value_lines());
    lines
}

fn clash_lines() -> Vec<String> {
    let shapes = [Section::Expressions, Section::Commands, Section::Values];
    let [expression, command, value] = shapes.map(|s| format!("6 of {}", s.name()));
    let mut lines = vec![clash_line("5", "10")];
    for given in ["5", "10"] {
        lines.extend([&expression, &command, &value].map(|other| clash_line(given, other)));
    }
    lines.extend([&expression, &command].map(|given| clash_line(given, &value)));
    lines
}

fn value_lines() -> Vec<String> {
    let mut lines = Vec::new();
    lines.extend([false, true].map(long_file));
    lines.extend([false, true].map(section));
    lines.extend([0, usize::from(Section::Values.limit())].map(values));
    lines.extend(Kind::ALL.map(|kind| value_in(Some(kind))));
    lines.extend([VALUES_AND_NO_FUEL, VALUES_MATTER].map(str::to_string));
    lines
}

fn reason_lines() -> Vec<String> {
    let mut lines = Vec::new();
    for section in Section::ALL {
        lines.extend([Due::Count, Due::Row].map(|due| cut_line(section, due)));
    }
    lines.extend(Section::ALL.map(|s| format!("refused 2, too many {}", s.name())));
    lines.push("refused 2, no commands".to_string());
    let flaws: [(&str, &[&str], &[&str]); 14] = [
        ("type", &["target type"], &[]),
        ("home row", &["type", "size"], &[]),
        ("home", &["home"], &["b"]),
        ("cast", &["expression a", "type b"], &[]),
        ("null", &["type a"], &["b"]),
        ("pointer sum", &["expression a", "expression b"], &[]),
        ("read", &["expression a"], &["b"]),
        ("operator", &["expression a", "expression b"], &[]),
        ("skip", &[], &["a", "b", "c"]),
        ("then", &["command a", "command b"], &["c"]),
        ("store", &["expression a", "expression b"], &["c"]),
        ("if", &["expression a", "command b", "command c"], &[]),
        ("while", &["expression a", "command b"], &["c"]),
        (Section::Values.row_name(), &["home", "cell"], &[]),
    ];
    for (row, outside, unused) in flaws {
        lines.extend(outside.iter().map(|field| flaw_line(row, field, OUTSIDE)));
        lines.extend(unused.iter().map(|field| flaw_line(row, field, UNUSED)));
    }
    for section in [Section::Expressions, Section::Commands] {
        lines.push(flaw_line(section.row_name(), "tag", UNKNOWN));
    }
    lines.push("refused 4, spare bytes".to_string());
    lines.push("refused 5, too many cells".to_string());
    lines.extend([Fall::SameCell, Fall::LowerCell, Fall::LowerHome].map(fall_line));
    let shapes = [
        ("pointer sum", Needed::Reference),
        ("pointer sum", Needed::Int),
        ("read", Needed::Reference),
        ("operator", Needed::Int),
        ("store", Needed::Reference),
        ("if", Needed::Int),
        ("while", Needed::Int),
        (Section::Values.row_name(), Needed::Int),
    ];
    lines.extend(shapes.map(|(row, needed)| shape_line(row, needed)));
    lines
        .extend(["too short", "too long", "byte"].map(|what| format!("refused 7, marking {what}")));
    let rules = [
        KindRule::DynamicTarget,
        KindRule::SumNotSafe,
        KindRule::CastConverts,
        KindRule::StoreConverts,
    ];
    lines.extend(rules.map(kind_rule_line));
    lines.extend(["marking", "memory"].map(|lent| format!("refused 9, lent {lent}")));
    lines
}

fn check_lines() -> Vec<String> {
    let mut lines = Vec::new();
    let accesses = [
        (Check::Null, Kind::Safe),
        (Check::Null, Kind::Seq),
        (Check::AccessBounds, Kind::Seq),
        (Check::AccessBounds, Kind::Dynamic),
        (Check::NullHome, Kind::Dynamic),
    ];
    for (made, through) in accesses {
        lines.extend(["read", "store"].map(|row| check(made, row, Some(through))));
    }
    lines.push(check(Check::ConversionBounds, "cast", None));
    for through in [Kind::Safe, Kind::Seq] {
        let line = check(Check::ConversionBounds, "store", Some(through));
        lines.push(line);
    }
    for operator in [Operator::Divide, Operator::Remainder] {
        lines.push(check(Check::Divisor, operator.symbol(), None));
    }
    lines
}

fn row_lines() -> Vec<String> {
    let mut lines = Vec::new();
    let kinds = [None, Some(Kind::Safe), Some(Kind::Seq), Some(Kind::Dynamic)];
    for row in ["cast", "store"] {
        for to in kinds {
            for from in kinds {
                let converts = match (from, to) {
                    (_, None) | (Some(Kind::Seq), Some(Kind::Safe)) => true,
                    (None, Some(to)) => to != Kind::Safe,
                    (Some(from), Some(to)) => from == to,
                };
                if converts {
                    lines.push(conversion(row, from, to));
                }
            }
        }
    }
    for row in ["read", "store"] {
        for through in Kind::ALL {
            for target in kinds {
                if through != Kind::Dynamic || matches!(target, None | Some(Kind::Dynamic)) {
                    lines.push(access(row, Some(through), target));
                }
            }
        }
    }
    lines
}
