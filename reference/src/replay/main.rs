// The replay as a program: a trace from standard input, what it comes to on standard output.
use reference::rules::Plain;
use reference::trace::replay::replay;
use std::io::{self, Read, Write};
use std::process::ExitCode;

fn main() -> ExitCode {
    match run() {
        Ok(()) => ExitCode::SUCCESS,
        Err(error) => {
            eprintln!("replay: {error}");
            ExitCode::from(2)
        }
    }
}

fn run() -> io::Result<()> {
    let mut trace = Vec::new();
    io::stdin().lock().read_to_end(&mut trace)?;
    let mut out = io::stdout().lock();
    out.write_all(&replay(&trace, &Plain))?;
    out.flush()
}
