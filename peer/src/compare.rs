//! Built programs held against this implementation on generated requests.

use std::fs;
use std::io::{self, Read, Write};
use std::iter::repeat;
use std::path::{Path, PathBuf};
use std::process::{Command, Stdio};
use std::thread;

use crate::generate::{at_limits, Generator};
use crate::kinds;
use crate::probe::{serve, Request};
use crate::report::Report;

pub struct Comparison {
    /// The programs to hold against this one.
    pub kinds: Option<PathBuf>,
    pub probe: Option<PathBuf>,
    pub generator: Generator,
    pub count: u64,
    /// Where the first input that is answered differently is written.
    pub out: PathBuf,
}

/// Requests sent to one process.
const CHUNK: u64 = 1000;

/// Streams with a bad request that are sent beside each chunk.
const BAD_STREAMS: usize = 5;

/// One file in so many is given to `kinds`, a process each, and every file at
/// the limits of the format, up to a number of files.
const KINDS_EVERY: u64 = 20;
const MOST_KINDS: u64 = 1500;

/// An input on which a program differs from this one.
struct Difference {
    program: &'static str,
    /// Which input it is.
    what: String,
    ours: String,
    theirs: String,
    /// The program's input.
    replay: Vec<u8>,
}

impl Difference {
    /// Both answers, and the first word in which they differ.
    fn tell(&self, output: &mut impl Write) -> io::Result<()> {
        writeln!(output, "  peer: {}", clipped(&self.ours))?;
        writeln!(output, "  it:   {}", clipped(&self.theirs))?;
        let ours = self.ours.split_whitespace().map(Some).chain(repeat(None));
        let theirs = self.theirs.split_whitespace().map(Some).chain(repeat(None));
        let words = ours
            .zip(theirs)
            .take_while(|(a, b)| a.is_some() || b.is_some());
        if let Some((index, (a, b))) = words.enumerate().find(|(_, (a, b))| a != b) {
            let (a, b) = (a.unwrap_or("nothing"), b.unwrap_or("nothing"));
            writeln!(output, "  word {}: {a} and {b}", index + 1)?;
        }
        Ok(())
    }
}

/// An answer without its end, and without what makes it too long to read.
fn clipped(answer: &str) -> String {
    const MOST: usize = 400;
    let answer = answer.trim_end();
    match answer.char_indices().nth(MOST) {
        Some((end, _)) => format!("{} ... ({} bytes)", &answer[..end], answer.len()),
        None => answer.to_string(),
    }
}

impl Comparison {
    /// Prints what was reached and the first difference. True if there is none.
    pub fn run(&self, output: &mut impl Write) -> io::Result<bool> {
        let mut report = Report::new();
        let mut kinds_left = MOST_KINDS;
        for start in (0..self.count).step_by(CHUNK as usize) {
            let end = self.count.min(start + CHUNK);
            let requests: Vec<(u64, Request)> = (start..end)
                .map(|index| (index, self.generator.request(index)))
                .collect();
            for (_, request) in &requests {
                report.count(request);
            }
            if let Some(difference) = self.compare(&requests, &mut kinds_left)? {
                write!(output, "{report}")?;
                fs::write(&self.out, &difference.replay)?;
                let Difference { program, what, .. } = &difference;
                writeln!(output, "{program}: {what} of seed {}", self.generator.seed)?;
                difference.tell(output)?;
                writeln!(output, "differs; written to {}", self.out.display())?;
                return Ok(false);
            }
        }
        write!(output, "{report}")?;
        if self.probe.is_some() {
            writeln!(output, "probe: {} requests, all agree", self.count)?;
        }
        if self.kinds.is_some() {
            let files = MOST_KINDS - kinds_left;
            writeln!(output, "kinds: {files} files, all agree")?;
        }
        Ok(true)
    }

    fn compare(
        &self,
        requests: &[(u64, Request)],
        kinds_left: &mut u64,
    ) -> io::Result<Option<Difference>> {
        if let Some(program) = &self.probe {
            let difference = compare_requests(program, requests)?;
            if difference.is_some() {
                return Ok(difference);
            }
            for (index, _) in requests.iter().take(BAD_STREAMS) {
                let stream = self.generator.bad_stream(*index)?;
                let difference = compare_bad_stream(program, *index, stream)?;
                if difference.is_some() {
                    return Ok(difference);
                }
            }
        }
        if let Some(program) = &self.kinds {
            for (index, request) in requests {
                let given = index % KINDS_EVERY == 0 || at_limits(*index);
                if given && *kinds_left > 0 {
                    *kinds_left -= 1;
                    let difference = compare_kinds(program, *index, request)?;
                    if difference.is_some() {
                        return Ok(difference);
                    }
                }
            }
        }
        Ok(None)
    }
}

/// Gives a program its input and takes all its output. The input is written
/// by a thread, since the program may answer before it has read everything.
fn converse(program: &Path, input: Vec<u8>) -> io::Result<String> {
    let mut child = Command::new(program)
        .stdin(Stdio::piped())
        .stdout(Stdio::piped())
        .spawn()
        .map_err(|error| io::Error::new(error.kind(), format!("{}: {error}", program.display())))?;
    let stdin = child.stdin.take();
    let writer = thread::spawn(move || {
        if let Some(mut stdin) = stdin {
            // A program that stops reading shows in its answers.
            let _ = stdin.write_all(&input);
        }
    });
    let mut output = Vec::new();
    if let Some(mut stdout) = child.stdout.take() {
        stdout.read_to_end(&mut output)?;
    }
    let _ = writer.join();
    child.wait()?;
    Ok(String::from_utf8_lossy(&output).into_owned())
}

fn bytes(request: &Request) -> io::Result<Vec<u8>> {
    let mut bytes = Vec::new();
    request.write(&mut bytes)?;
    Ok(bytes)
}

fn compare_requests(program: &Path, requests: &[(u64, Request)]) -> io::Result<Option<Difference>> {
    let mut input = Vec::new();
    for (_, request) in requests {
        request.write(&mut input)?;
    }
    let output = converse(program, input)?;
    let mut lines = output.split_inclusive('\n');
    for (index, request) in requests {
        let ours = request.answer() + "\n";
        let theirs = lines.next().unwrap_or("(no answer)");
        if ours != theirs {
            return Ok(Some(Difference {
                program: "probe",
                what: format!("request {index}, letter {},", request.call.letter()),
                ours,
                theirs: theirs.to_string(),
                replay: bytes(request)?,
            }));
        }
    }
    match (lines.next(), requests.last()) {
        (Some(line), Some((index, request))) => Ok(Some(Difference {
            program: "probe",
            what: format!("more after request {index}"),
            ours: "(no more)".to_string(),
            theirs: line.to_string(),
            replay: bytes(request)?,
        })),
        _ => Ok(None),
    }
}

fn compare_bad_stream(
    program: &Path,
    index: u64,
    stream: Vec<u8>,
) -> io::Result<Option<Difference>> {
    let mut ours = Vec::new();
    serve(&stream[..], &mut ours)?;
    let ours = String::from_utf8_lossy(&ours).into_owned();
    let theirs = converse(program, stream.clone())?;
    Ok((ours != theirs).then(|| Difference {
        program: "probe",
        what: format!("bad stream {index}"),
        ours,
        theirs,
        replay: stream,
    }))
}

fn compare_kinds(program: &Path, index: u64, request: &Request) -> io::Result<Option<Difference>> {
    let ours = kinds::output(&request.file);
    let theirs = converse(program, request.file.clone())?;
    Ok((ours != theirs).then(|| Difference {
        program: "kinds",
        what: format!("the file of request {index}"),
        ours,
        theirs,
        replay: request.file.clone(),
    }))
}
