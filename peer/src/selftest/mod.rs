//! The program's own tests: the twelve cases and further ones, and properties
//! that hold for every generated file.

mod values;

use crate::brute;
use crate::builder::Builder;
use crate::calls::{check_file, infer_file, run_file};
use crate::generate::{acceptable, well_formed, Generator};
use crate::infer::infer;
use crate::kind::{check, Kind, Marking};
use crate::kinds;
use crate::probe::{serve, Call, Request, Requests};
use crate::random::Random;
use crate::reader::read;
use crate::refusal::Refusal;
use crate::report::Report;
use crate::routine::Routine;
use crate::rows::Home;
use crate::run::{run, run_watched, Answer, Outcome};
use crate::samples;
use crate::show;
use crate::text;
use crate::validity::{Validity, ValidityWatch};
use crate::value::Value;
use crate::wording::accept;

/// How many expectations held. Of those that did not, the first are kept.
#[derive(Debug, Default)]
pub struct Tally {
    pub passed: u64,
    pub failed: u64,
    pub failures: Vec<String>,
}

impl Tally {
    const KEPT: usize = 20;

    fn expect(&mut self, holds: bool, what: impl FnOnce() -> String) {
        if holds {
            self.passed += 1;
        } else {
            self.failed += 1;
            if self.failures.len() < Self::KEPT {
                self.failures.push(what());
            }
        }
    }

    fn expect_equal<T: PartialEq + std::fmt::Debug>(
        &mut self,
        found: T,
        expected: T,
        what: impl FnOnce() -> String,
    ) {
        self.expect(found == expected, || {
            format!("{}: {found:?}, not {expected:?}", what())
        });
    }
}

/// The seed of the files tested.
const SEED: u64 = 2002;

/// All tests, over so many generated files.
pub fn test(count: u64) -> Tally {
    let mut tally = Tally::default();
    test_cases(&mut tally);
    test_samples(&mut tally);
    let mut stuck = 0;
    let mut with_values = 0;
    for index in 0..count {
        let file = well_formed(SEED, index);
        let random = &mut Random::for_item(SEED + 1, index);
        match read(&file) {
            Ok(routine) => {
                test_markings(&mut tally, index, &routine);
                test_least_shown(&mut tally, index, &file, &routine);
                test_runs(&mut tally, index, random, &file, &routine);
                stuck += u64::from(test_any_marking(&mut tally, index, random, &routine));
                let valued = values::test_file(&mut tally, index, random, &file, &routine);
                with_values += u64::from(valued);
            }
            Err(refusal) => tally.expect(false, || format!("file {index}: {refusal}")),
        }
    }
    // Or "never stuck" would say nothing.
    tally.expect(stuck > count / 100, || {
        format!("only {stuck} runs of refused markings are stuck")
    });
    tally.expect(with_values > count / 4, || {
        format!("only {with_values} files have start values")
    });
    test_requests(&mut tally, count);
    tally
}

fn test_cases(tally: &mut Tally) {
    let cases = samples::cases().into_iter();
    for case in cases
        .chain(samples::further())
        .chain(samples::start_value_cases())
    {
        tally.expect_equal(case.request.answer().as_str(), case.answer, || {
            format!("case {}", case.name)
        });
    }
    let (file, printed) = samples::PRINTED_CASE;
    tally.expect_equal(kinds::output(&file).as_str(), printed, || {
        "the printed case".to_string()
    });
}

/// The cells that the sample `sort` sorts, after its three variables.
const SORTED: usize = 48;

fn test_samples(tally: &mut Tally) {
    for sample in samples::all() {
        let mut memory = vec![0; 4096];
        let answer = run_file(&sample.file, &sample.marking, sample.fuel, &mut memory);
        let done = |answer: Answer| answer.outcome == Outcome::Done;
        let meant = !matches!(
            sample.name.as_str(),
            "rising-seq" | "falling-dynamic" | "deep-pairs" | "ladder"
        );
        tally.expect(answer.is_ok_and(|answer| done(answer) || !meant), || {
            format!("sample {}: {answer:?}", sample.name)
        });
        if sample.name == "sort" {
            let list = &memory[3..3 + SORTED];
            let sorted = list.is_sorted() && list[0] < list[SORTED - 1];
            tally.expect(sorted, || format!("the sort gives {list:?}"));
        }
        test_text(tally, &sample.name, &sample.file);
    }
}

/// Files with more types than this are not for brute force.
const FEW_TYPES: usize = 6;

fn test_markings(tally: &mut Tally, index: u64, routine: &Routine) {
    let least = infer(routine);
    let dynamic = Marking::uniform(routine, Kind::Dynamic);
    tally.expect_equal(check(routine, &least), Ok(()), || {
        format!("file {index}, its least marking")
    });
    tally.expect_equal(check(routine, &dynamic), Ok(()), || {
        format!("file {index}, all DYNAMIC")
    });
    if routine.type_count() <= FEW_TYPES {
        tally.expect_equal(Some(least), brute::least(routine), || {
            format!("file {index}, its least marking by brute force")
        });
    }
}

const FUEL: u32 = 3000;

fn test_runs(tally: &mut Tally, index: u64, random: &mut Random, file: &[u8], routine: &Routine) {
    let marking = acceptable(random, routine);
    tally.expect_equal(check(routine, &marking), Ok(()), || {
        format!("file {index}, a marking above the least")
    });

    const SURPLUS: u64 = 77;
    let cells = routine.cells();
    let mut memory = vec![SURPLUS; cells + 1];
    let mut watch = ValidityWatch::new(routine, &marking);
    let answer = run_watched(routine, &marking, FUEL, &mut memory, &mut watch);
    let Ok(answer) = answer else {
        tally.expect(false, || format!("file {index}: {answer:?}"));
        return;
    };
    tally.expect(answer.outcome != Outcome::Stuck, || {
        format!("file {index}: stuck at {}", answer.place)
    });
    tally.expect_equal(watch.trouble(), None, || format!("file {index}, validity"));
    tally.expect(Validity::new(routine, &marking).memory(&memory), || {
        format!("file {index}: the last memory is not valid")
    });
    tally.expect_equal(memory[cells], SURPLUS, || {
        format!("file {index}, a surplus entry")
    });
    test_fuel(tally, index, routine, &marking, answer);
    test_short_memory(tally, index, file, &marking, cells);
}

/// Any marking can be run, and is stuck only if it is not acceptable. True if
/// it is.
fn test_any_marking(tally: &mut Tally, index: u64, random: &mut Random, routine: &Routine) -> bool {
    let types = routine.type_count();
    let marking = Marking((0..types).map(|_| random.pick(&Kind::ALL)).collect());
    let mut memory = vec![0; routine.cells()];
    let answer = run(routine, &marking, FUEL, &mut memory);
    let stuck = answer.is_ok_and(|answer| answer.outcome == Outcome::Stuck);
    tally.expect(!stuck || check(routine, &marking).is_err(), || {
        format!("file {index}: stuck under an acceptable marking")
    });
    stuck
}

/// The units of a run are just the fuel it takes.
fn test_fuel(tally: &mut Tally, index: u64, routine: &Routine, marking: &Marking, answer: Answer) {
    let mut memory = vec![0; routine.cells()];
    let mut with = |fuel| run(routine, marking, fuel, &mut memory);
    if answer.outcome != Outcome::Fuel {
        tally.expect_equal(with(answer.units), Ok(answer), || {
            format!("file {index}, just enough fuel")
        });
    }
    if let Some(less) = answer.units.checked_sub(1) {
        let short = with(less);
        tally.expect(
            short.is_ok_and(|a| a.outcome == Outcome::Fuel && a.units == less),
            || format!("file {index}, a unit too few: {short:?}"),
        );
    }
}

fn test_short_memory(tally: &mut Tally, index: u64, file: &[u8], marking: &Marking, cells: usize) {
    if cells > 0 {
        let before = vec![5; cells - 1];
        let mut memory = before.clone();
        let answer = run_file(file, &marking.to_bytes(), FUEL, &mut memory);
        let refused = answer.map_err(|refusal| (refusal.number(), refusal.place));
        tally.expect_equal(refused, Err((9, cells)), || {
            format!("file {index}, short memory")
        });
        tally.expect_equal(memory, before, || {
            format!("file {index}, memory of a refused run")
        });
    }
}

/// A run shown in words under no marking is one under the least.
fn test_least_shown(tally: &mut Tally, index: u64, file: &[u8], routine: &Routine) {
    let least = infer(routine).to_bytes();
    tally.expect(
        show::run(file, None, FUEL) == show::run(file, Some(&least), FUEL),
        || format!("file {index}: its run in words is not under the least marking"),
    );
}

/// What is told in words of a check or a run is the answer to the request.
fn test_words(tally: &mut Tally, index: u64, request: &Request) {
    match &request.call {
        Call::Read | Call::Infer { .. } => {}
        Call::Check { marking } => {
            let told = match accept(&request.file, Some(marking)) {
                Ok(_) => Some("accepted".to_string()),
                Err(words) => refusal_told(&words),
            };
            tally.expect_equal(told, Some(request.answer()), || {
                format!("request {index}, its check in words")
            });
        }
        Call::Run { marking, fuel, .. } => {
            // Just the cells are lent, as they are to a run in words.
            let cells = read(&request.file).map_or(0, |routine| routine.cells());
            let lent = Request {
                file: request.file.clone(),
                call: Call::Run {
                    marking: marking.clone(),
                    fuel: *fuel,
                    memory: vec![0; cells],
                },
            };
            let answer = lent.answer();
            let told = match show::run(&request.file, Some(marking), *fuel) {
                Ok(words) => run_told(&words),
                Err(words) => {
                    let entries = " 0".repeat(cells);
                    refusal_told(&words).map(|refused| format!("{refused} :{entries}"))
                }
            };
            tally.expect_equal(told, Some(answer), || {
                format!("request {index}, its run in words")
            });
        }
    }
}

/// `refused 8 22` from `refused 8 at byte 22: ...`.
fn refusal_told(words: &str) -> Option<String> {
    let mut words = words.split([' ', ':']);
    let (refused, number) = (words.next()?, words.next()?);
    let place = words.nth(2)?;
    Some(format!("{refused} {number} {place}"))
}

/// The first line, and the entries of all cells, from a run in words. None if
/// it does not show the row that it ended at, and why a check failed there.
fn run_told(words: &str) -> Option<String> {
    let first = words.lines().next()?;
    let shown = match first.split(['-', ' ']).next()? {
        "check" => 2,
        "fuel" => 1,
        _ => 0,
    };
    let ending = words.lines().skip(2);
    if ending.take_while(|line| line.starts_with("  ")).count() != shown {
        return None;
    }
    let mut told = format!("{first} :");
    let cells = words
        .lines()
        .filter_map(|line| line.strip_prefix("  cell "));
    for cell in cells {
        let (_, value) = cell.split_once(" = ")?;
        let value = match value.strip_prefix("pair (") {
            Some(pair) => {
                let (home, rest) = pair.split_once(", ")?;
                let (offset, _) = rest.split_once(')')?;
                Value::Pair(Home(home.parse().ok()?), offset.parse().ok()?)
            }
            None => Value::Number(value.split(',').next()?.parse().ok()?),
        };
        told += &format!(" {}", value.to_entry());
    }
    Some(told)
}

/// Requests of every sort: what a refused call leaves alone, what is written
/// comes back, what is told in words is the answer, and the report has a line
/// for all that is reached.
fn test_requests(tally: &mut Tally, count: u64) {
    let generator = Generator::new(SEED);
    let mut report = Report::new();
    let lines = report.lines().len();
    for index in 0..count {
        let request = generator.request(index);
        report.count(&request);
        test_protocol(tally, index, &request);
        test_refused(tally, index, &request);
        test_words(tally, index, &request);
        values::test_request(tally, index, &request);
        test_text(tally, &format!("request {index}"), &request.file);
        if let Ok(routine) = read(&request.file) {
            let again = Builder::from(&routine).file();
            tally.expect(again == request.file, || {
                format!("request {index}: its routine written again differs")
            });
        }
    }
    tally.expect_equal(report.lines().len(), lines, || {
        "lines of the report".to_string()
    });
    for index in 0..count / 100 {
        test_bad_stream(tally, &generator, index);
    }
}

/// The last line of the answer, and no other, is of a bad request.
fn test_bad_stream(tally: &mut Tally, generator: &Generator, index: u64) {
    let mut output = Vec::new();
    let served = generator
        .bad_stream(index)
        .and_then(|stream| serve(&stream[..], &mut output));
    let output = String::from_utf8_lossy(&output);
    let bad = |line: &str| line.starts_with("bad request ");
    let ends_so = output.lines().last().is_some_and(bad);
    let once = output.lines().filter(|line| bad(line)).count() == 1;
    tally.expect(served.is_ok_and(|whole| !whole) && ends_so && once, || {
        format!("bad stream {index}: {output}")
    });
}

fn test_protocol(tally: &mut Tally, index: u64, request: &Request) {
    let mut bytes = Vec::new();
    let back = request
        .write(&mut bytes)
        .ok()
        .and_then(|()| Requests::new(&bytes[..]).next_request().ok().flatten());
    tally.expect(back.as_ref() == Some(request), || {
        format!("request {index} does not come back from its bytes")
    });
    bytes.pop();
    tally.expect(Requests::new(&bytes[..]).next_request().is_err(), || {
        format!("request {index}, cut short, is taken")
    });
}

/// A refused call writes nothing; a call that is not leaves the surplus.
fn test_refused(tally: &mut Tally, index: u64, request: &Request) {
    let same_numbers = |answer: Result<(), Refusal>| match (answer, read(&request.file)) {
        (Err(refusal), Err(of_file)) => refusal == of_file,
        (Err(refusal), Ok(_)) => (7..=9).contains(&refusal.number()),
        (Ok(()), file) => file.is_ok(),
    };
    match &request.call {
        Call::Read => {}
        Call::Infer { lent } => {
            let mut after = lent.clone();
            let answer = infer_file(&request.file, &mut after);
            tally.expect(answer.is_ok() || after == *lent, || {
                format!("request {index}: a refused inference wrote")
            });
            tally.expect(same_numbers(answer), || {
                format!("request {index}: {answer:?}")
            });
        }
        Call::Check { marking } => {
            let answer = check_file(&request.file, marking);
            tally.expect(same_numbers(answer), || {
                format!("request {index}: {answer:?}")
            });
        }
        Call::Run {
            marking,
            fuel,
            memory,
        } => {
            let mut after = memory.clone();
            let answer = run_file(&request.file, marking, *fuel, &mut after);
            tally.expect(answer.is_ok() || after == *memory, || {
                format!("request {index}: a refused run wrote")
            });
            let answer = answer.map(|_| ());
            tally.expect(same_numbers(answer), || {
                format!("request {index}: {answer:?}")
            });
        }
    }
}

fn test_text(tally: &mut Tally, name: &str, file: &[u8]) {
    let back = text::parse(&text::print(file));
    tally.expect(back.as_deref() == Ok(file), || {
        format!("{name}: the text is not that of the file: {:?}", back.err())
    });
}
