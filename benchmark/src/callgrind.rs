// Counts the instructions of one row's call on one side, in a process of its own, and those of a whole program.
use crate::counted::NAMES;
use crate::side::Side;
use std::fs::{self, File};
use std::path::Path;
use std::process::Command;

/// How many instructions the counted function took, all that it calls included.
pub fn count(valgrind: &str, key: &str, side: Side) -> Result<u64, String> {
    let program = std::env::current_exe().map_err(|fault| fault.to_string())?;
    let directory = program.parent().unwrap_or(Path::new("."));
    let name = program.file_name().ok_or("the program has no name")?;
    // The environment and the arguments lie on the stack, and where it begins may change how octets
    // are copied: with none of the one, and as many octets of the other, every run is the same.
    let counted = format!("{:<32}", format!("{key} {}", side.name()));
    let ran = Command::new(valgrind)
        .env_clear()
        .current_dir(directory)
        .args(["--tool=callgrind", "--callgrind-out-file=/dev/null", "--collect-atstart=no"])
        .args(NAMES.map(|name| format!("--toggle-collect={name}")))
        .arg(Path::new(".").join(name))
        .args(["--count", &counted])
        .output()
        .map_err(|fault| format!("{valgrind}: {fault}"))?;
    let said = String::from_utf8_lossy(&ran.stderr);
    if !ran.status.success() {
        return Err(format!("{key}, {}: not counted\n{said}", side.name()));
    }
    match collected(&said) {
        Some(count) if count > 0 => Ok(count),
        _ => Err(format!("{key}, {}: nothing was counted\n{said}", side.name())),
    }
}

/// How many instructions a program took with these octets as its standard input, and what it printed.
pub fn count_program(
    valgrind: &str,
    program: &Path,
    given: &[u8],
) -> Result<(u64, String), String> {
    let told = |fault: std::io::Error| format!("{}: {fault}", program.display());
    let own = std::env::current_exe().map_err(told)?;
    let input = own.with_file_name("trace");
    fs::write(&input, given).map_err(told)?;
    let ran = Command::new(valgrind)
        .env_clear()
        .args(["--tool=callgrind", "--callgrind-out-file=/dev/null"])
        .arg(program)
        .stdin(File::open(&input).map_err(told)?)
        .output()
        .map_err(|fault| format!("{valgrind}: {fault}"))?;
    let said = String::from_utf8_lossy(&ran.stderr);
    match collected(&said) {
        Some(count) if ran.status.success() => {
            Ok((count, String::from_utf8_lossy(&ran.stdout).into_owned()))
        }
        _ => Err(format!("{}: not counted\n{said}", program.display())),
    }
}

/// The number after `Collected :`.
fn collected(said: &str) -> Option<u64> {
    said.lines().find_map(|line| line.split_once("Collected :")?.1.trim().parse().ok())
}
