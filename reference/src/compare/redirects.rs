// Redirects read, written and decided by both programs, and the laws of what ours gives.
use crate::kinds::Verdict;
use crate::ours::redirects::Ours;
use crate::report::{self, Detail};
use reference::redirect::program::{broken, Given, Model, Outcome};
use reference::rules::Rules;
use reference::show::hex;

pub fn run(given: Given, rules: &impl Rules, detail: Detail) -> Verdict {
    let ours = Ours::default();
    let our_outcome = Outcome::of(&ours, &given);
    let broken = broken(&ours, &given, &our_outcome);
    let reference = Outcome::of(&Model(rules), &given);
    let kept = ours.kept_around();
    let agrees = our_outcome == reference && broken.is_empty() && kept;
    Verdict::of(agrees, detail, || {
        let mut lines = input(&given);
        lines.extend(broken.iter().map(|law| format!("* isn't so: {law}")));
        lines.extend(report::around(kept));
        lines.extend(report::compared(&our_outcome.fields(), &reference.fields(), detail));
        lines
    })
}

fn input(given: &Given) -> Vec<String> {
    let Given { data, writing, record, redirects } = given;
    let fields = [
        ("data to read", hex(data)),
        ("identity type to write", writing.identity_type.to_string()),
        ("identity to write", hex(&writing.identity)),
        ("nonce to write", hex(&writing.nonce)),
        ("output before", hex(&writing.output)),
        ("record", format!("{} {:?}", record.count, record.times)),
    ];
    let mut lines = report::input(&fields.map(|(name, value)| (name.to_string(), value)));
    for (place, redirect) in redirects.iter().enumerate() {
        lines.push(format!("  decision {place}:"));
        lines.extend(report::input(&redirect.fields()));
    }
    lines
}
