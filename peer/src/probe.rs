//! The probe protocol: requests on a stream, one line of answer for each.

use std::fmt::Write as _;
use std::io::{self, BufRead, BufReader, Read, Write};

use crate::calls::{check_file, infer_file, run_file};
use crate::reader::read;
use crate::refusal::Refusal;

/// The most bytes a marking in a request may have.
pub const MOST_MARKING_BYTES: usize = 4096;

/// The most entries that the memory in a request may have.
pub const MOST_ENTRIES: usize = 8192;

#[derive(Clone, Debug, PartialEq, Eq)]
pub struct Request {
    pub file: Vec<u8>,
    pub call: Call,
}

/// What is asked of the file.
#[derive(Clone, Debug, PartialEq, Eq)]
pub enum Call {
    Read,
    Infer {
        lent: Vec<u8>,
    },
    Check {
        marking: Vec<u8>,
    },
    Run {
        marking: Vec<u8>,
        fuel: u32,
        memory: Vec<u64>,
    },
}

impl Call {
    pub fn letter(&self) -> char {
        match self {
            Call::Read => 'R',
            Call::Infer { .. } => 'I',
            Call::Check { .. } => 'C',
            Call::Run { .. } => 'X',
        }
    }
}

impl Request {
    pub fn write(&self, out: &mut impl Write) -> io::Result<()> {
        out.write_all(&[self.call.letter() as u8])?;
        write_bytes(out, &self.file)?;
        match &self.call {
            Call::Read => Ok(()),
            Call::Infer { lent } => write_bytes(out, lent),
            Call::Check { marking } => write_bytes(out, marking),
            Call::Run {
                marking,
                fuel,
                memory,
            } => {
                write_bytes(out, marking)?;
                out.write_all(&fuel.to_le_bytes())?;
                out.write_all(&length(memory)?.to_le_bytes())?;
                for entry in memory {
                    out.write_all(&entry.to_le_bytes())?;
                }
                Ok(())
            }
        }
    }

    /// The line that answers the request, without its end.
    pub fn answer(&self) -> String {
        match &self.call {
            Call::Read => match read(&self.file) {
                Ok(routine) => {
                    let [a, b, c, d, e] = routine.starts();
                    format!("read {a} {b} {c} {d} {e}")
                }
                Err(refusal) => refused(refusal),
            },
            Call::Infer { lent } => {
                let mut lent = lent.clone();
                let line = match infer_file(&self.file, &mut lent) {
                    Ok(()) => "marked".to_string(),
                    Err(refusal) => refused(refusal),
                };
                with_entries(line, &lent)
            }
            Call::Check { marking } => match check_file(&self.file, marking) {
                Ok(()) => "accepted".to_string(),
                Err(refusal) => refused(refusal),
            },
            Call::Run {
                marking,
                fuel,
                memory,
            } => {
                let mut memory = memory.clone();
                let line = match run_file(&self.file, marking, *fuel, &mut memory) {
                    Ok(answer) => answer.to_string(),
                    Err(refusal) => refused(refusal),
                };
                with_entries(line, &memory)
            }
        }
    }
}

fn refused(refusal: Refusal) -> String {
    format!("refused {} {}", refusal.number(), refusal.place)
}

/// A line and then every entry of the lent buffer.
fn with_entries<T: std::fmt::Display>(mut line: String, entries: &[T]) -> String {
    line.push_str(" :");
    for entry in entries {
        let _ = write!(line, " {entry}");
    }
    line
}

fn length<T>(items: &[T]) -> io::Result<u16> {
    u16::try_from(items.len())
        .map_err(|_| io::Error::new(io::ErrorKind::InvalidInput, "over 65,535 items"))
}

fn write_bytes(out: &mut impl Write, bytes: &[u8]) -> io::Result<()> {
    out.write_all(&length(bytes)?.to_le_bytes())?;
    out.write_all(bytes)
}

/// Why there is no next request.
#[derive(Debug)]
pub enum Trouble {
    /// It is cut short, of another letter or over a limit; the offset is that
    /// of its first byte.
    Bad(u64),
    Input(io::Error),
}

/// Requests one after the other, with the offset that each begins at.
pub struct Requests<R> {
    input: BufReader<R>,
    offset: u64,
}

impl<R: Read> Requests<R> {
    pub fn new(input: R) -> Requests<R> {
        Requests {
            input: BufReader::new(input),
            offset: 0,
        }
    }

    /// The next request, or none where the input ends.
    pub fn next_request(&mut self) -> Result<Option<Request>, Trouble> {
        if self.input.fill_buf().map_err(Trouble::Input)?.is_empty() {
            return Ok(None);
        }
        let begin = self.offset;
        match self.request() {
            Ok(Some(request)) => Ok(Some(request)),
            Ok(None) => Err(Trouble::Bad(begin)),
            Err(error) if error.kind() == io::ErrorKind::UnexpectedEof => Err(Trouble::Bad(begin)),
            Err(error) => Err(Trouble::Input(error)),
        }
    }

    /// Is nothing more at hand without waiting?
    pub fn drained(&self) -> bool {
        self.input.buffer().is_empty()
    }

    /// None for a letter or a length that is not allowed.
    fn request(&mut self) -> io::Result<Option<Request>> {
        let [letter] = self.array()?;
        if !b"RICX".contains(&letter) {
            return Ok(None);
        }
        let file_length = self.length()?;
        let file = self.bytes(file_length)?;
        if letter == b'R' {
            let call = Call::Read;
            return Ok(Some(Request { file, call }));
        }
        let marking_length = self.length()?;
        if marking_length > MOST_MARKING_BYTES {
            return Ok(None);
        }
        let marking = self.bytes(marking_length)?;
        let call = match letter {
            b'I' => Call::Infer { lent: marking },
            b'C' => Call::Check { marking },
            _ => {
                let fuel = u32::from_le_bytes(self.array()?);
                let entries = self.length()?;
                if entries > MOST_ENTRIES {
                    return Ok(None);
                }
                let memory = self
                    .bytes(8 * entries)?
                    .chunks_exact(8)
                    .map(|entry| entry.iter().rev().fold(0, |n, &b| n << 8 | u64::from(b)))
                    .collect();
                Call::Run {
                    marking,
                    fuel,
                    memory,
                }
            }
        };
        Ok(Some(Request { file, call }))
    }

    fn array<const N: usize>(&mut self) -> io::Result<[u8; N]> {
        let mut bytes = [0; N];
        self.input.read_exact(&mut bytes)?;
        self.offset += N as u64;
        Ok(bytes)
    }

    fn length(&mut self) -> io::Result<usize> {
        Ok(usize::from(u16::from_le_bytes(self.array()?)))
    }

    fn bytes(&mut self, length: usize) -> io::Result<Vec<u8>> {
        let mut bytes = vec![0; length];
        self.input.read_exact(&mut bytes)?;
        self.offset += length as u64;
        Ok(bytes)
    }
}

/// Answers every request. True unless a bad request ended it.
pub fn serve(input: impl Read, output: &mut impl Write) -> io::Result<bool> {
    let mut requests = Requests::new(input);
    loop {
        match requests.next_request() {
            Ok(Some(request)) => {
                writeln!(output, "{}", request.answer())?;
                // Whoever waits for this answer has sent all they will.
                if requests.drained() {
                    output.flush()?;
                }
            }
            Ok(None) => {
                output.flush()?;
                return Ok(true);
            }
            Err(Trouble::Bad(offset)) => {
                writeln!(output, "bad request {offset}")?;
                output.flush()?;
                return Ok(false);
            }
            Err(Trouble::Input(error)) => return Err(error),
        }
    }
}
