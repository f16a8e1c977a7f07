//! The program `peer`: one subcommand for each use.

mod arguments;
mod usage;

use std::fs;
use std::io::{self, BufWriter, ErrorKind, Read, Write};
use std::path::PathBuf;
use std::process::ExitCode;

use arguments::Arguments;
use peer::compare::Comparison;
use peer::generate::Generator;
use peer::list::list;
use peer::probe::{self, Requests, Trouble};
use peer::report::Report;
use peer::wording::accept;
use peer::{kinds, selftest, show, text};
use usage::{overview, Subcommand};

static SUBCOMMANDS: [Subcommand; 11] = [
    Subcommand {
        name: "kinds",
        words: "",
        options: &[],
        plain: 0..=0,
        does: "run the file on standard input",
        more: "\
It runs under its least marking with fuel 1000000. A line for each type with its
kind, then outcome, place and units; or `refused`, number and place.",
        act: run_kinds,
    },
    Subcommand {
        name: "run",
        words: "FILE [MARKING] [--fuel N]",
        options: &["--fuel"],
        plain: 1..=2,
        does: "run a file, and tell in words how it ended and what its cells hold",
        more: "\
It runs under MARKING, or else its least marking, with fuel N, or else 1000000.
The first line is outcome, place and units, as `peer kinds` prints them. The
status is 1 if the file or the marking is refused.",
        act: run_run,
    },
    Subcommand {
        name: "check",
        words: "FILE MARKING",
        options: &[],
        plain: 2..=2,
        does: "say whether a marking is accepted, or why it is refused",
        more: "\
A marking has a byte for each type: 0 SAFE, 1 SEQ, 2 DYNAMIC. The status is 1 if
the file or the marking is refused.",
        act: run_check,
    },
    Subcommand {
        name: "list",
        words: "FILE [MARKING]",
        options: &[],
        plain: 1..=2,
        does: "print why each type has its kind, each row's checks, and the start values",
        more: "\
The kinds are those of MARKING, or else of the least marking. The reason of a
kind is the first row that would break a rule if that type alone were lower. Of
a start value it tells what its cell holds, a number or a pair, and why. The
status is 1 if the file or the marking is refused.",
        act: run_list,
    },
    Subcommand {
        name: "text",
        words: "FILE",
        options: &[],
        plain: 1..=1,
        does: "print a routine file as text, each row with its place",
        more: "A file that is refused is printed too, with the reason on top.",
        act: run_text,
    },
    Subcommand {
        name: "bytes",
        words: "",
        options: &[],
        plain: 0..=0,
        does: "turn the text on standard input into a routine file",
        more: "",
        act: run_bytes,
    },
    Subcommand {
        name: "probe",
        words: "",
        options: &[],
        plain: 0..=0,
        does: "answer the requests on standard input",
        more: "",
        act: run_probe,
    },
    Subcommand {
        name: "generate",
        words: "[--seed S] [--count N] [--letters RCIX]",
        options: &["--seed", "--count", "--letters"],
        plain: 0..=0,
        does: "write random requests",
        more: "Without options the seed is 1, the count 1000, and all letters are used.",
        act: run_generate,
    },
    Subcommand {
        name: "report",
        words: "",
        options: &[],
        plain: 0..=0,
        does: "count what the requests on standard input reach",
        more: "",
        act: run_report,
    },
    Subcommand {
        name: "test",
        words: "[--count N]",
        options: &["--count"],
        plain: 0..=0,
        does: "run the tests over N generated files",
        more: "Without options the count is 20000. The status is 1 if a test fails.",
        act: run_test,
    },
    Subcommand {
        name: "compare",
        words: "[--kinds PATH] [--probe PATH] [--seed S] [--count N] [--letters RCIX] [--out PATH]",
        options: &[
            "--kinds",
            "--probe",
            "--seed",
            "--count",
            "--letters",
            "--out",
        ],
        plain: 0..=0,
        does: "hold built programs against this one",
        more: "\
The first input that is answered differently is written to the file of --out, or
else to `difference`. The status is 1 if there is one.",
        act: run_compare,
    },
];

fn main() -> ExitCode {
    let mut words = std::env::args().skip(1);
    let name = words.next();
    let done = match name.as_deref() {
        Some("help" | "--help" | "-h") => say(&overview(&SUBCOMMANDS)),
        Some(name) => carry_out(name, words.collect()),
        None => Err(overview(&SUBCOMMANDS).trim_end().to_string()),
    };
    match done {
        Ok(true) => ExitCode::SUCCESS,
        Ok(false) => ExitCode::FAILURE,
        Err(message) => {
            eprintln!("{message}");
            ExitCode::from(2)
        }
    }
}

/// Whether all went well, or what to tell the person who asked.
type Done = Result<bool, String>;

fn carry_out(name: &str, words: Vec<String>) -> Done {
    let Some(subcommand) = SUBCOMMANDS.iter().find(|known| known.name == name) else {
        let overview = overview(&SUBCOMMANDS);
        return Err(format!(
            "unknown subcommand `{name}`\n{}",
            overview.trim_end()
        ));
    };
    if words.iter().any(|word| word == "--help" || word == "-h") {
        return say(&subcommand.to_string());
    }
    let arguments = Arguments::parse(words, subcommand.options, subcommand.plain.clone())
        .map_err(|message| format!("{message}\n{}", subcommand.usage()))?;
    (subcommand.act)(&arguments)
}

fn told(error: io::Error) -> String {
    error.to_string()
}

/// Prints a text. Whoever stops reading it has seen enough.
fn say(text: &str) -> Done {
    let mut output = io::stdout().lock();
    match output
        .write_all(text.as_bytes())
        .and_then(|()| output.flush())
    {
        Err(error) if error.kind() != ErrorKind::BrokenPipe => Err(told(error)),
        _ => Ok(true),
    }
}

/// Prints an answer, which may be a refusal.
fn answer(answer: Result<String, String>) -> Done {
    match answer {
        Ok(text) => say(&text),
        Err(refusal) => say(&refusal).map(|_| false),
    }
}

/// Reads a named file, with its name in the error; `-` is standard input.
fn named(path: &str) -> Result<Vec<u8>, String> {
    if path == "-" {
        let mut bytes = Vec::new();
        io::stdin().lock().read_to_end(&mut bytes).map_err(told)?;
        return Ok(bytes);
    }
    fs::read(path).map_err(|error| format!("{path}: {error}"))
}

/// The file, and the marking if one is named.
fn file_and_marking(arguments: &Arguments) -> Result<(Vec<u8>, Option<Vec<u8>>), String> {
    match arguments.plain() {
        [file, marking] if file == "-" && marking == "-" => {
            Err("the file and the marking cannot both be standard input".to_string())
        }
        [file, marking] => Ok((named(file)?, Some(named(marking)?))),
        words => Ok((named(&words[0])?, None)),
    }
}

fn generator(arguments: &Arguments) -> Result<Generator, String> {
    let mut generator = Generator::new(arguments.number("--seed")?.unwrap_or(1));
    if let Some(letters) = arguments.text("--letters") {
        let known = |letter| Generator::LETTERS.contains(&letter);
        if letters.is_empty() || !letters.chars().all(known) {
            return Err(format!("--letters {letters}: they are among R, C, I and X"));
        }
        generator.letters = letters.chars().collect();
    }
    Ok(generator)
}

fn run_kinds(_: &Arguments) -> Done {
    let mut file = Vec::new();
    io::stdin()
        .lock()
        .take(kinds::DECIDING_BYTES as u64)
        .read_to_end(&mut file)
        .map_err(told)?;
    io::stdout()
        .write_all(kinds::output(&file).as_bytes())
        .map_err(told)?;
    Ok(true)
}

fn run_run(arguments: &Arguments) -> Done {
    let fuel = arguments.number("--fuel")?.unwrap_or(kinds::FUEL);
    let (file, marking) = file_and_marking(arguments)?;
    answer(show::run(&file, marking.as_deref(), fuel))
}

fn run_check(arguments: &Arguments) -> Done {
    let (file, marking) = file_and_marking(arguments)?;
    answer(accept(&file, marking.as_deref()).map(|_| "accepted\n".to_string()))
}

fn run_list(arguments: &Arguments) -> Done {
    let (file, marking) = file_and_marking(arguments)?;
    answer(accept(&file, marking.as_deref()).map(|(routine, marking)| list(&routine, &marking)))
}

fn run_text(arguments: &Arguments) -> Done {
    say(&text::print(&named(&arguments.plain()[0])?))
}

fn run_bytes(_: &Arguments) -> Done {
    let source = io::read_to_string(io::stdin().lock()).map_err(told)?;
    let file = text::parse(&source).map_err(|error| error.to_string())?;
    io::stdout().write_all(&file).map_err(told)?;
    Ok(true)
}

fn run_probe(_: &Arguments) -> Done {
    let mut output = BufWriter::new(io::stdout().lock());
    probe::serve(io::stdin().lock(), &mut output).map_err(told)
}

fn run_generate(arguments: &Arguments) -> Done {
    let generator = generator(arguments)?;
    let count = arguments.number("--count")?.unwrap_or(1000);
    let mut output = BufWriter::new(io::stdout().lock());
    for index in 0..count {
        generator.request(index).write(&mut output).map_err(told)?;
    }
    output.flush().map_err(told)?;
    Ok(true)
}

fn run_report(_: &Arguments) -> Done {
    let mut report = Report::new();
    let mut requests = Requests::new(io::stdin().lock());
    loop {
        match requests.next_request() {
            Ok(Some(request)) => report.count(&request),
            Ok(None) => break,
            Err(Trouble::Bad(offset)) => return Err(format!("bad request {offset}")),
            Err(Trouble::Input(error)) => return Err(told(error)),
        }
    }
    let (missed, lines) = (report.missed().count(), report.lines().len());
    say(&format!("{report}{missed} of {lines} lines are zero\n"))
}

fn run_test(arguments: &Arguments) -> Done {
    let tally = selftest::test(arguments.number("--count")?.unwrap_or(20_000));
    for failure in &tally.failures {
        println!("{failure}");
    }
    println!("{} passed, {} failed", tally.passed, tally.failed);
    Ok(tally.failed == 0)
}

fn run_compare(arguments: &Arguments) -> Done {
    let comparison = Comparison {
        kinds: arguments.text("--kinds").map(PathBuf::from),
        probe: arguments.text("--probe").map(PathBuf::from),
        generator: generator(arguments)?,
        count: arguments.number("--count")?.unwrap_or(1000),
        out: PathBuf::from(arguments.text("--out").unwrap_or("difference")),
    };
    if comparison.kinds.is_none() && comparison.probe.is_none() {
        return Err("--kinds or --probe names the program to compare".to_string());
    }
    comparison.run(&mut io::stdout().lock()).map_err(told)
}
