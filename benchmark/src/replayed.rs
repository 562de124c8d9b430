// A trace of update requests, replayed by the proved program: its instructions for traces of several sizes.
use crate::callgrind;
use crate::chains::{self, NOTIFY};
use crate::job::{calls_before, Handling};
use std::path::Path;
use unmavreth::limits::ENTRY_MOST;
use unmavreth::trace::{write_entry, Entry};
use unmavreth::{Number, Request};

/// How many update requests, and how many instructions the whole program took.
pub type Replayed = (u64, u64);

const SIZES: [u64; 3] = [1_000, 2_000, 4_000];

/// Each update has a greater ID than the one before; all IDs have as many octets.
const FIRST_ID: u32 = 100_000;

pub fn count(valgrind: &str, program: &str) -> Result<Vec<Replayed>, String> {
    let program =
        Path::new(program).canonicalize().map_err(|fault| format!("{program}: {fault}"))?;
    let one = |updates| {
        let octets = trace(updates).map_err(|number| format!("not written: {number:?}"))?;
        let (count, printed) = callgrind::count_program(valgrind, &program, &octets)?;
        check(updates, &printed)?;
        eprintln!("bench: a trace of {updates} update requests: {count}");
        Ok((updates, count))
    };
    SIZES.into_iter().map(one).collect()
}

/// The tables of the request's row, then so many of that row's request.
fn trace(updates: u64) -> Result<Vec<u8>, Number> {
    let handling = Handling::of(NOTIFY, chains::update());
    let mut entries = calls_before();
    for id in (FIRST_ID..).take(updates as usize) {
        entries.push(Entry::Request(Request { id, ..handling.request() }));
    }
    let mut trace = Vec::new();
    for entry in &entries {
        let mut out = [0; ENTRY_MOST];
        let length = write_entry(entry, &mut out)?;
        trace.extend(&out[..length]);
    }
    Ok(trace)
}

/// Every update must be applied, and every record be told.
fn check(updates: u64, printed: &str) -> Result<(), String> {
    let applied = printed.lines().filter(|line| line.ends_with(" 0 applied replaced")).count();
    let records = printed.lines().filter(|line| line.starts_with("i")).count();
    match (applied as u64, records) {
        (applied, 6) if applied == updates => Ok(()),
        told => Err(format!("of {updates} update requests and 6 records the replay told {told:?}")),
    }
}

#[cfg(test)]
mod tests {
    use super::*;

    #[test]
    fn an_update_that_is_not_applied_is_seen() {
        let records = "ike\nike\nipsec\nipsec\nipsec\nipsec\n";
        let printed =
            |line: &str| format!("0 0 none none\n5 0 applied replaced\n{line}\n{records}");
        assert!(check(2, &printed("6 0 applied replaced")).is_ok());
        assert!(check(2, &printed("6 0 stale replaced")).is_err());
        assert!(check(2, &printed("20 at 7")).is_err());
        assert!(check(1, "5 0 applied replaced\n20 at 7\n").is_err());
    }

    #[test]
    fn the_trace_has_the_calls_and_the_updates() {
        let trace = trace(3).expect("a trace");
        let (mut entries, mut at) = (0, 0);
        while at < trace.len() {
            at = unmavreth::trace::read_entry(&trace, at).expect("an entry").1;
            entries += 1;
        }
        assert_eq!(entries, 5 + 3);
    }
}
