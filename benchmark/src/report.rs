// The figures as markdown tables.
use crate::figure::Figure;
use crate::replayed::Replayed;
use crate::rows::{Kind, HANDLE_UPDATE, READ_UPDATE};
use std::fmt::Write;

/// Instructions for reading the 112-octet chain: all, and with debug formatting stubbed.
pub const PEERS: [(&str, [u64; 2]); 2] =
    [("strongSwan 5.9.8", [21_653, 10_565]), ("OpenIKED 7.4", [12_237, 2_545])];

const CAPTION: [&str; 2] = [
    "\
Instructions of one call, counted by callgrind: of the library through its Rust interface (`host/rust`), with
all that it calls; of the lean baseline (`benchmark/src/lean`), the same calls in safe Rust without allocation,
written for speed; and of the second program (`reference/`), which is written to be plain and allocates. All on
fresh tables, after one call on others; what a call is given is made outside of the count. All Rust is compiled by
",
    " at opt-level 3 with overflow checks, the second program's own profile. In every row the
answers, the outputs and the tables of all three were the same. A count is the same in every run; another
processor or C library may copy octets in other steps.
",
];

pub fn tables(figures: &[Figure]) -> String {
    let growth = [by_octets(figures), by_records(figures)];
    let parts = [calls(figures), redirects(figures), policy(figures), peers(figures)];
    [parts.join("\n"), growth.join("\n")].join("\n")
}

fn calls(figures: &[Figure]) -> String {
    let mut text = CAPTION.join(env!("COMPILER"));
    text += "\n| Call | Ours | Lean | Ours / lean | Second program |\n|---|---:|---:|---:|---:|\n";
    for of in figures.iter().filter(|of| of.row.kind == Kind::Call) {
        let [ours, lean, second] = [of.ours, of.lean, of.second].map(grouped);
        line(&mut text, &[of.row.title, &ours, &lean, &ratio(of.ours, of.lean), &second]);
    }
    text
}

fn redirects(figures: &[Figure]) -> String {
    let mut text =
        "One decision on a REDIRECT, which the second program does not make here:\n\n".to_string();
    text += "| Decision | Ours | Lean | Ours / lean |\n|---|---:|---:|---:|\n";
    for of in figures.iter().filter(|of| of.row.kind == Kind::Redirect) {
        let [ours, lean] = [of.ours, of.lean].map(grouped);
        line(&mut text, &[of.row.title, &ours, &lean, &ratio(of.ours, of.lean)]);
    }
    text
}

/// A ratio of wall times is that of the shortest rounds of one run, so it differs a little from run to run.
fn policy(figures: &[Figure]) -> String {
    let mut text = "\
One check of the policy that accepts nothing, beside the same check bit by bit (`benchmark/src/bit_by_bit.rs`): the
instructions, and the ratios of them and of the wall time, measured in one run by turns and not quite the same in each:

| Policy | Ours | Bit by bit | Lean | Second program | Ours / bit by bit | the time | Ours / lean | the time |
|---|---:|---:|---:|---:|---:|---:|---:|---:|
"
    .to_string();
    for of in figures {
        let Some(times) = of.times else { continue };
        let [ours_time, bits_time, lean_time] = times.map(|time| time.as_nanos() as u64);
        let [ours, bits, lean, second] = [of.ours, of.bits, of.lean, of.second].map(grouped);
        let [by_bits, by_lean] = [of.bits, of.lean].map(|other| ratio(of.ours, other));
        let [bits_time, lean_time] = [bits_time, lean_time].map(|other| ratio(ours_time, other));
        let counts = [of.row.title, &ours, &bits, &lean, &second];
        line(&mut text, &[&counts[..], &[&by_bits, &bits_time, &by_lean, &lean_time]].concat());
    }
    text
}

/// The peers only parse: no decision, no tables, no response.
fn peers(figures: &[Figure]) -> String {
    let [read, handled] = [READ_UPDATE, HANDLE_UPDATE].map(|key| ours_of(figures, key));
    let mut text = "The 112-octet chain beside the peers, which only parse it (no decision, no tables, no response):\n\n".to_string();
    text += "| Peer | Instructions | Ours, read / peer | Ours, whole request / peer |\n|---|---:|---:|---:|\n";
    for (name, [all, stubbed]) in PEERS {
        for (what, count) in [("", all), (", debug formatting stubbed", stubbed)] {
            let name = format!("{name}{what}");
            line(&mut text, &[&name, &grouped(count), &ratio(read, count), &ratio(handled, count)]);
        }
    }
    text
}

/// The row of this key, which is always there.
pub fn figure_of<'a>(figures: &'a [Figure], key: &str) -> &'a Figure {
    figures.iter().find(|of| of.row.key == key).expect("a row of this key")
}

fn ours_of(figures: &[Figure], key: &str) -> u64 {
    figure_of(figures, key).ours
}

/// An entry's share is told by the difference of two traces, so that what a run takes once isn't in it.
pub fn replays(figures: &[Figure], replayed: &[Replayed]) -> String {
    let call = ours_of(figures, HANDLE_UPDATE);
    let mut text = "\
A trace of update requests, the 112-octet chain each, replayed by the whole program: the instructions, and the
difference to the trace above it for each entry that it has more, beside those of the call alone:

| Update requests | Instructions | an entry | of them the call |
|---:|---:|---:|---:|
"
    .to_string();
    let mut before: Option<Replayed> = None;
    for &(updates, count) in replayed {
        let each = before.map(|(fewer, less)| grouped((count - less) / (updates - fewer)));
        let (each, call) = (each.unwrap_or_default(), before.map(|_| grouped(call)));
        line(&mut text, &[&grouped(updates), &grouped(count), &each, &call.unwrap_or_default()]);
        before = Some((updates, count));
    }
    text
}

fn by_octets(figures: &[Figure]) -> String {
    let mut text = "Growth of the reader, on 4-octet payloads:\n\n".to_string();
    text += "| Octets | Ours | an octet | Lean | an octet | Second program | an octet |\n";
    text += "|---:|---:|---:|---:|---:|---:|---:|\n";
    for of in figures {
        if let Kind::ByOctets(octets) = of.row.kind {
            let counts = [of.ours, of.lean, of.second];
            let [ours, lean, second] = counts.map(|count| [grouped(count), ratio(count, octets)]);
            let cells = [[grouped(octets)].to_vec(), [ours, lean, second].concat()].concat();
            line(&mut text, &cells.iter().map(String::as_str).collect::<Vec<_>>());
        }
    }
    text
}

fn by_records(figures: &[Figure]) -> String {
    let mut text = "Growth of an accepted check (the last of 32 IKE records, 128 IPsec records in use) with those that it moves:\n\n".to_string();
    text += "| IPsec records moved | Ours | Lean | Ours / lean | Second program |\n";
    text += "|---:|---:|---:|---:|---:|\n";
    for of in figures {
        if let Kind::ByRecords(records) = of.row.kind {
            let [records, ours, lean, second] = [records, of.ours, of.lean, of.second].map(grouped);
            line(&mut text, &[&records, &ours, &lean, &ratio(of.ours, of.lean), &second]);
        }
    }
    text
}

fn line(text: &mut String, cells: &[&str]) {
    let _ = writeln!(text, "| {} |", cells.join(" | "));
}

/// Two decimals, to the nearest.
pub fn ratio(one: u64, other: u64) -> String {
    let other = other.max(1);
    let hundredths = (one * 100 + other / 2) / other;
    format!("{}.{:02}", hundredths / 100, hundredths % 100)
}

/// Thousands set apart.
pub fn grouped(number: u64) -> String {
    match number {
        0..=999 => number.to_string(),
        _ => format!("{},{:03}", grouped(number / 1000), number % 1000),
    }
}

#[cfg(test)]
mod tests {
    use super::*;

    #[test]
    fn thousands_are_set_apart() {
        let shown = [0, 999, 1000, 21_053, 1_000_007].map(grouped);
        assert_eq!(shown, ["0", "999", "1,000", "21,053", "1,000,007"]);
    }

    #[test]
    fn ratios_have_two_decimals() {
        let shown = [(1, 3), (2, 3), (1383, 3319), (300, 100), (5, 0)].map(|(a, b)| ratio(a, b));
        assert_eq!(shown, ["0.33", "0.67", "0.42", "3.00", "5.00"]);
    }
}
