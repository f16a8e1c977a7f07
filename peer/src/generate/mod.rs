//! Random probe requests, the same for a seed on every machine.

mod boundary;
mod clash;
mod damage;
mod routines;
mod values;
mod weave;

use std::io;

use crate::infer::{infer, infer_above};
use crate::kind::{Kind, Marking};
use crate::probe::{Call, Request, MOST_ENTRIES, MOST_MARKING_BYTES};
use crate::random::Random;
use crate::reader::read;
use crate::routine::Routine;
use crate::run::{run, Outcome};

/// One request in so many has a boundary file.
const BOUNDARY_EVERY: u64 = 64;

/// The requests of a seed.
#[derive(Clone, Debug)]
pub struct Generator {
    pub seed: u64,
    /// The letters of the requests to make, one of them at least.
    pub letters: Vec<char>,
}

impl Generator {
    pub const LETTERS: [char; 4] = ['R', 'C', 'I', 'X'];

    pub fn new(seed: u64) -> Generator {
        Generator {
            seed,
            letters: Self::LETTERS.to_vec(),
        }
    }

    /// The request of this index, which depends on no other.
    pub fn request(&self, index: u64) -> Request {
        let random = &mut Random::for_item(self.seed, index);
        // A run asks the most, so it is asked most often.
        let letter = if self.letters.contains(&'X') && random.percent(35) {
            'X'
        } else {
            random.pick(&self.letters)
        };
        let file = file(index, random);
        let routine = read(&file).ok();
        let routine = routine.as_ref();
        let call = match letter {
            'R' => Call::Read,
            'I' => Call::Infer {
                lent: lent_marking(random, routine),
            },
            'C' => Call::Check {
                marking: marking(random, routine),
            },
            _ => {
                let marking = marking(random, routine);
                Call::Run {
                    fuel: fuel(random, routine, &marking),
                    memory: lent_memory(random, routine),
                    marking,
                }
            }
        };
        Request { file, call }
    }

    /// A stream of requests that ends in a bad one: cut short, of another
    /// letter, or over a limit.
    pub fn bad_stream(&self, index: u64) -> io::Result<Vec<u8>> {
        let random = &mut Random::for_item(!self.seed, index);
        let mut stream = Vec::new();
        for _ in 0..random.below(3) {
            self.request(random.draw()).write(&mut stream)?;
        }
        let start = stream.len();
        match (random.below(4), random.pick(&self.letters)) {
            (0, _) => {
                let letter = random.pick(b"\0ABDrx\xff");
                stream.push(letter);
                stream.extend(random.bytes(9));
            }
            (1, letter @ ('I' | 'C' | 'X')) => {
                stream.extend([letter as u8, 0, 0]);
                stream.extend(put_length(MOST_MARKING_BYTES + 1));
                stream.resize(stream.len() + MOST_MARKING_BYTES + 20, 0);
            }
            (2, 'X') => {
                stream.extend([b'X', 0, 0, 0, 0, 9, 0, 0, 0]);
                stream.extend(put_length(MOST_ENTRIES + 1));
                stream.resize(stream.len() + 8 * MOST_ENTRIES + 20, 0);
            }
            _ => {
                self.request(random.draw()).write(&mut stream)?;
                let whole = stream.len() - start;
                stream.truncate(start + 1 + random.index(whole - 1));
            }
        }
        Ok(stream)
    }
}

fn put_length(length: usize) -> [u8; 2] {
    (length as u16).to_le_bytes()
}

/// Has the request of this index a file at the limits of the format?
pub fn at_limits(index: u64) -> bool {
    index % BOUNDARY_EVERY == BOUNDARY_EVERY - 1
}

fn file(index: u64, random: &mut Random) -> Vec<u8> {
    if at_limits(index) {
        let which = index / BOUNDARY_EVERY % boundary::BOUNDARIES;
        return boundary::boundary(which, random);
    }
    match random.below(100) {
        0 => {
            let length = random.between(0, 60) as usize;
            random.bytes(length)
        }
        1..=12 => routines::tangled(random).file(),
        13..=20 => routines::slipping(random).file(),
        21..=52 => {
            let file = routines::woven(random).file();
            damage::damaged(random, file)
        }
        _ => routines::woven(random).file(),
    }
}

/// A well-formed file with few types and short runs, for tests.
pub fn well_formed(seed: u64, index: u64) -> Vec<u8> {
    let random = &mut Random::for_item(seed, index);
    match random.below(20) {
        0..=2 => routines::tangled(random).file(),
        3 => routines::slipping(random).file(),
        _ => routines::woven(random).file(),
    }
}

/// A marking that is acceptable: least, all DYNAMIC or in between.
pub fn acceptable(random: &mut Random, routine: &Routine) -> Marking {
    match random.below(10) {
        0..=4 => infer(routine),
        5..=6 => Marking::uniform(routine, Kind::Dynamic),
        _ => {
            let mut floor = infer(routine);
            let raised = random.between(1, 3);
            for _ in 0..raised {
                if let Some(kind) = some_kind(random, &mut floor) {
                    *kind = random.pick(&[Kind::Seq, Kind::Dynamic]).max(*kind);
                }
            }
            infer_above(routine, &floor)
        }
    }
}

fn some_kind<'a>(random: &mut Random, marking: &'a mut Marking) -> Option<&'a mut Kind> {
    if marking.0.is_empty() {
        return None;
    }
    let index = random.index(marking.0.len());
    Some(&mut marking.0[index])
}

fn marking(random: &mut Random, routine: Option<&Routine>) -> Vec<u8> {
    let Some(routine) = routine else {
        let length = random.below(8);
        return (0..length).map(|_| random.below(4) as u8).collect();
    };
    let mut marking = acceptable(random, routine);
    match random.below(20) {
        0 => {
            let mut bytes = marking.to_bytes();
            bytes.truncate(random.index(bytes.len() + 1));
            bytes
        }
        1 => {
            let mut bytes = marking.to_bytes();
            let spare = random.pick(&[1, 1, 1, 2, MOST_MARKING_BYTES - bytes.len()]);
            bytes.extend((0..spare).map(|_| random.below(4) as u8));
            bytes
        }
        2 => {
            let mut bytes = marking.to_bytes();
            for byte in &mut bytes {
                if random.percent(30) {
                    *byte = random.pick(&[3, 3, 4, 128, 255]);
                }
            }
            bytes
        }
        3..=5 => {
            let changed = random.between(1, 2);
            for _ in 0..changed {
                if let Some(kind) = some_kind(random, &mut marking) {
                    *kind = random.pick(&Kind::ALL);
                }
            }
            marking.to_bytes()
        }
        _ => marking.to_bytes(),
    }
}

/// A length around the one needed: mostly exact, some short, some long.
fn lent_length(random: &mut Random, needed: usize, most: usize) -> usize {
    match random.below(20) {
        0 => 0,
        1..=2 => random.index(needed + 1),
        3 => needed.saturating_sub(1),
        4..=6 => (needed + random.between(1, 5) as usize).min(most),
        _ => needed,
    }
}

fn lent_marking(random: &mut Random, routine: Option<&Routine>) -> Vec<u8> {
    let needed = routine.map_or(random.below(8) as usize, Routine::type_count);
    let length = lent_length(random, needed, MOST_MARKING_BYTES);
    random.bytes(length)
}

fn lent_memory(random: &mut Random, routine: Option<&Routine>) -> Vec<u64> {
    let needed = routine.map_or(random.below(8) as usize, Routine::cells);
    let mut length = lent_length(random, needed, MOST_ENTRIES);
    if random.below(1000) == 0 {
        length = MOST_ENTRIES;
    }
    (0..length)
        .map(|_| match random.below(8) {
            0 => random.draw(),
            1 => u64::MAX,
            2 => 1 << 32 | random.below(9),
            3 => random.below(70) << 32 | random.below(70),
            _ => random.below(100),
        })
        .collect()
}

/// A trial's fuel: few routines that end need more.
const TRIAL: u32 = 20_000;

/// Fuel that is around what the run takes, or small, or large.
fn fuel(random: &mut Random, routine: Option<&Routine>, marking: &[u8]) -> u32 {
    let trial = routine.and_then(|routine| {
        let marking = Marking::from_bytes(routine, marking).ok()?;
        crate::check(routine, &marking).ok()?;
        run(routine, &marking, TRIAL, &mut vec![0; routine.cells()]).ok()
    });
    let Some(answer) = trial else {
        return random.below(1000) as u32;
    };
    let units = answer.units;
    if answer.outcome == Outcome::Fuel {
        return match random.below(20) {
            0 => 100_000,
            1..=5 => random.below(u64::from(TRIAL)) as u32,
            _ => random.below(2000) as u32,
        };
    }
    match random.below(20) {
        0 => random.pick(&[0, 0, 0, 1, 2, 3, 4]),
        1..=2 => units,
        3..=4 => units.saturating_sub(1),
        5..=8 => random.below(u64::from(units) + 1) as u32,
        9 => u32::MAX,
        _ => units + random.below(5000) as u32,
    }
}
