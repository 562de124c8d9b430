// The verified program that replays a trace, run with the trace as its standard input.
use super::pipe;
use reference::cases::traces::Case;
use std::fs::{self, File};
use std::io::{self, Seek, Write};
use std::process::{self, Child, Command, Output, Stdio};
use std::{env, thread};

/// From the repository's root, in which the comparison is run.
const PROGRAM: &str = "target/bin/replay";

/// What a program that has ended leaves.
#[derive(Debug, PartialEq, Eq)]
pub struct Ended {
    pub printed: Vec<u8>,
    /// What it printed as errors.
    pub errors: Vec<u8>,
    /// None if a signal ended it.
    pub status: Option<i32>,
}

/// Replays the trace of a case: from a file, or through a pipe in its pieces.
pub fn run(case: &Case) -> io::Result<Ended> {
    let Output { status, stdout, stderr } = match case.pieces.split(&case.trace) {
        None => start(file_of(&case.trace)?.into())?.wait_with_output()?,
        Some(pieces) => fed(&pieces)?,
    };
    Ok(Ended { printed: stdout, errors: stderr, status: status.code() })
}

fn start(input: Stdio) -> io::Result<Child> {
    let mut command = Command::new(PROGRAM);
    let command = command.stdin(input).stdout(Stdio::piped()).stderr(Stdio::piped());
    command.spawn().map_err(|error| io::Error::new(error.kind(), format!("{PROGRAM}: {error}")))
}

fn fed(pieces: &[&[u8]]) -> io::Result<Output> {
    let (reader, writer) = pipe::of_one_page()?;
    let child = start(reader.into())?;
    thread::scope(|scope| {
        let feeding = scope.spawn(move || pipe::feed(writer, pieces));
        let output = child.wait_with_output()?;
        feeding.join().expect("feeding doesn't panic")?;
        Ok(output)
    })
}

/// A file without a name that holds these octets, to be read from its start.
fn file_of(octets: &[u8]) -> io::Result<File> {
    let path = env::temp_dir().join(format!("unmavreth-compare-{}", process::id()));
    let mut file = File::options().read(true).write(true).create_new(true).open(&path)?;
    fs::remove_file(&path)?;
    file.write_all(octets)?;
    file.rewind()?;
    Ok(file)
}
