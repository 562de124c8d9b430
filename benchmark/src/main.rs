// The benchmark: counts the instructions of each row's call, on the library, on the lean baseline and on the
// second program.
#[cfg(test)]
mod alike;
mod baseline;
mod bit_by_bit;
mod callgrind;
mod chains;
mod convert;
mod counted;
mod figure;
mod job;
mod lean;
mod ours;
mod plot;
mod replayed;
mod report;
mod rows;
mod second;
mod side;
mod timed;
mod told;

use figure::Figure;
use rows::Row;
use side::Side;
use std::process::ExitCode;
use told::Told;

fn main() -> ExitCode {
    let arguments: Vec<String> = std::env::args().skip(1).collect();
    let arguments: Vec<&str> = arguments.iter().map(String::as_str).collect();
    let done = match arguments[..] {
        ["--count", counted] => count(counted),
        [valgrind, replay, plot] => measure(valgrind, replay, plot),
        _ => Err("run it by ./bench".to_string()),
    };
    match done {
        Ok(()) => ExitCode::SUCCESS,
        Err(fault) => {
            eprintln!("bench: {fault}");
            ExitCode::FAILURE
        }
    }
}

/// Counts every row, once all sides tell the same of it, and the replays; then prints the tables and draws the plot.
fn measure(valgrind: &str, replay: &str, plot: &str) -> Result<(), String> {
    let mut figures = Vec::new();
    for row in rows::all() {
        compare(&row, Side::Ours.told(&(row.job)()))?;
        let figure = Figure::of(valgrind, row)?;
        eprintln!("bench: {}: {}, {}, {}", figure.row.key, figure.ours, figure.lean, figure.second);
        figures.push(figure);
    }
    let replayed = replayed::count(valgrind, replay)?;
    print!("{}\n{}", report::tables(&figures), report::replays(&figures, &replayed));
    std::fs::write(plot, plot::plot(&figures)).map_err(|fault| format!("{plot}: {fault}"))
}

/// Makes one row's counted call; what it and every side tell must be the same, and as expected.
fn count(counted: &str) -> Result<(), String> {
    let (key, side) = counted.trim_end().split_once(' ').ok_or("a row and a side")?;
    let rows = rows::all();
    let row = rows.iter().find(|row| row.key == key).ok_or("no such row")?;
    let side = Side::named(side).ok_or("no such side")?;
    compare(row, side.counted(&(row.job)()))
}

/// What was told of a row's call must be what every side tells of it, and as expected.
fn compare(row: &Row, told: Option<Told>) -> Result<(), String> {
    let told = told.ok_or("that side doesn't make the call")?;
    let job = (row.job)();
    for other in Side::ALL.into_iter().filter_map(|side| side.told(&job)) {
        told::check(&told, &other, &row.expected)
            .map_err(|fault| format!("{}: {fault}", row.key))?;
    }
    Ok(())
}
