// A trace replayed by both programs: all that each prints.
use crate::kinds::Verdict;
use crate::ours::replay::{self, Ended};
use crate::report::{self, Detail};
use reference::cases::traces::Case;
use reference::rules::Rules;
use reference::show::hex;
use std::io;

/// So much of a difference is shown, unless the case is shown in full.
const MOST_OCTETS: usize = 1_000;
const MOST_LINES: usize = 20;

pub fn run(case: Case, rules: &impl Rules, detail: Detail) -> io::Result<Verdict> {
    let ours = replay::run(&case)?;
    let printed = case.printed(rules);
    let reference = Ended { printed, errors: Vec::new(), status: Some(0) };
    Ok(Verdict::of(ours == reference, detail, || {
        let in_full = detail == Detail::AllFields;
        let mut lines = input(&case, in_full);
        let mut compared = compared(&ours, &reference, detail);
        let most = if in_full { compared.len() } else { MOST_LINES };
        let more = compared.len().saturating_sub(most);
        compared.truncate(most);
        lines.extend(compared);
        lines.extend((more > 0).then(|| format!("* and {more} more lines")));
        lines
    }))
}

fn input(case: &Case, in_full: bool) -> Vec<String> {
    let Case { trace, pieces } = case;
    let shown = if in_full { trace.len() } else { trace.len().min(MOST_OCTETS) };
    let cut = if shown < trace.len() { " .." } else { "" };
    let fields = [
        ("trace length", trace.len().to_string()),
        ("it comes", pieces.shown()),
        ("trace", hex(&trace[..shown]) + cut),
    ];
    report::input(&fields.map(|(name, value)| (name.to_string(), value)))
}

/// The lines of both, those of which only one program has any too.
fn compared(ours: &Ended, reference: &Ended, detail: Detail) -> Vec<String> {
    let (mut ours, mut reference) = (fields(ours), fields(reference));
    let count = ours.len().max(reference.len());
    for fields in [&mut ours, &mut reference] {
        for place in fields.len()..count {
            fields.push((format!("line {}", place - OF_END), "no such line".to_string()));
        }
    }
    report::compared(&ours, &reference, detail)
}

/// How many fields come before the lines.
const OF_END: usize = 2;

/// How the program ended, then each line, and what stands behind the last line end.
fn fields(ended: &Ended) -> Vec<(String, String)> {
    let quoted = |octets: &[u8]| format!("`{}`", octets.escape_ascii());
    let status = ended.status.map_or("a signal".to_string(), |status| status.to_string());
    let mut fields =
        vec![("status".to_string(), status), ("errors".to_string(), quoted(&ended.errors))];
    assert_eq!(fields.len(), OF_END);
    let lines = ended.printed.split(|&octet| octet == b'\n').enumerate();
    fields.extend(lines.map(|(place, line)| (format!("line {place}"), quoted(line))));
    fields
}
