//! A safe wrapper of the library: slices in, `Result` out.

use std::fmt;

#[repr(C)]
struct Answer {
    number: u32,
    place: u32,
}

#[repr(C)]
struct Ran {
    number: u32,
    place: u32,
    outcome: u32,
    units: u32,
}

extern "C" {
    fn sledkindle_read(file: *const u8, file_len: usize) -> Answer;
    fn sledkindle_check(
        file: *const u8,
        file_len: usize,
        marking: *const u8,
        marking_len: usize,
    ) -> Answer;
    fn sledkindle_infer(
        file: *const u8,
        file_len: usize,
        marking: *mut u8,
        marking_len: usize,
    ) -> Answer;
    fn sledkindle_run(
        file: *const u8,
        file_len: usize,
        marking: *const u8,
        marking_len: usize,
        fuel: u32,
        memory: *mut u64,
        memory_len: usize,
    ) -> Ran;
}

/// What was refused, and where.
#[derive(Debug, Clone, Copy, PartialEq, Eq)]
pub struct Refusal {
    pub number: u32,
    pub place: u32,
}

impl fmt::Display for Refusal {
    fn fmt(&self, out: &mut fmt::Formatter) -> fmt::Result {
        let words = match self.number {
            1 => "the file is cut short",
            2 => "a count is over its limit, or there are no commands",
            3 => "a row has a tag, field or number that is not allowed",
            4 => "bytes follow the start values",
            5 => "the homes have too many cells",
            6 => "an int stands where a reference is needed, or the reverse",
            7 => "the marking has a wrong length or byte",
            8 => "the marking breaks a kind rule",
            9 => "what was lent is too short",
            _ => "a start value is not behind the one before it, by home, then cell",
        };
        write!(out, "refused {} at {}: {}", self.number, self.place, words)
    }
}

/// How a run ended.
#[derive(Debug, Clone, Copy, PartialEq, Eq)]
pub enum Outcome {
    Done,
    Fuel { place: u32 },
    Check { number: u32, place: u32 },
}

fn refused(answer: Answer) -> Result<(), Refusal> {
    match answer.number {
        0 => Ok(()),
        number => Err(Refusal {
            number,
            place: answer.place,
        }),
    }
}

/// Is the file well-formed?
pub fn read(file: &[u8]) -> Result<(), Refusal> {
    // A slice's pointer is never null, and its length is that of what is behind it.
    refused(unsafe { sledkindle_read(file.as_ptr(), file.len()) })
}

/// Is the marking acceptable?
pub fn check(file: &[u8], marking: &[u8]) -> Result<(), Refusal> {
    refused(unsafe { sledkindle_check(file.as_ptr(), file.len(), marking.as_ptr(), marking.len()) })
}

/// The lowest acceptable marking.
pub fn infer(file: &[u8]) -> Result<Vec<u8>, Refusal> {
    let mut marking = [0u8; 255];
    refused(unsafe {
        sledkindle_infer(
            file.as_ptr(),
            file.len(),
            marking.as_mut_ptr(),
            marking.len(),
        )
    })?;
    // A well-formed file begins with its number of types, at most 255.
    Ok(marking[..usize::from(file[0])].to_vec())
}

/// Runs the file in `memory`, and answers how it ended and the units that it spent.
pub fn run(
    file: &[u8],
    marking: &[u8],
    fuel: u32,
    memory: &mut [u64],
) -> Result<(Outcome, u32), Refusal> {
    let ran = unsafe {
        sledkindle_run(
            file.as_ptr(),
            file.len(),
            marking.as_ptr(),
            marking.len(),
            fuel,
            memory.as_mut_ptr(),
            memory.len(),
        )
    };
    if ran.number != 0 {
        return Err(Refusal {
            number: ran.number,
            place: ran.place,
        });
    }
    let outcome = match ran.outcome {
        0 => Outcome::Done,
        5 => Outcome::Fuel { place: ran.place },
        number => Outcome::Check {
            number,
            place: ran.place,
        },
    };
    Ok((outcome, ran.units))
}
