//! Turns a text, one call a line, into a trace, and a trace into such a text: `docs/TRACE.md` has the form.
//!
//!     cargo run --example trace_text -- to-trace < text > trace
//!     cargo run --example trace_text -- to-text < trace > text
mod form;
use std::io::{self, Read, Write};
use std::process::ExitCode;

fn main() -> ExitCode {
    let arguments: Vec<String> = std::env::args().skip(1).collect();
    let arguments: Vec<&str> = arguments.iter().map(String::as_str).collect();
    let run = match arguments[..] {
        ["to-trace"] => form::to_trace,
        ["to-text"] => form::to_text,
        _ => {
            eprintln!("usage: trace_text to-trace < text, or trace_text to-text < trace");
            return ExitCode::from(2);
        }
    };
    match turned(run) {
        Ok(None) => ExitCode::SUCCESS,
        Ok(Some(fault)) => stop(&fault),
        Err(error) => stop(&error.to_string()),
    }
}

/// Turns standard input, and says what of it isn't understood.
fn turned(run: fn(&[u8]) -> form::Turned) -> io::Result<Option<String>> {
    let mut given = Vec::new();
    io::stdin().read_to_end(&mut given)?;
    let form::Turned { octets, fault } = run(&given);
    io::stdout().write_all(&octets)?;
    Ok(fault)
}

fn stop(fault: &str) -> ExitCode {
    eprintln!("trace_text: {fault}");
    ExitCode::FAILURE
}
