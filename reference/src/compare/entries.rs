// An entry written and one read by both programs, and both round trips.
use crate::kinds::Verdict;
use crate::ours::entries::Ours;
use crate::report::{self, Detail};
use reference::cases::entries::Case;
use reference::rules::Rules;
use reference::show::hex;
use reference::trace::codec::{shown, Model};

pub fn run(case: Case, rules: &impl Rules, detail: Detail) -> Verdict {
    let ours = case.outcome(&Ours);
    let reference = case.outcome(&Model(rules));
    let broken = ours.broken(&case.lent, &case.buffer);
    Verdict::of(ours == reference && broken.is_empty(), detail, || {
        let mut lines = report::input(&input(&case));
        lines.extend(broken.iter().map(|law| format!("* ours: not so that {law}")));
        lines.extend(report::compared(&ours.fields(), &reference.fields(), detail));
        lines
    })
}

fn input(case: &Case) -> Vec<(String, String)> {
    let Case { lent, output, buffer } = case;
    let fields = [
        ("kind to write", lent.kind.to_string()),
        ("slots to write", shown(&lent.slots)),
        ("source length", lent.source.len().to_string()),
        ("source", hex(&lent.source)),
        ("output length", output.len().to_string()),
        ("output", hex(output)),
        ("place to read at", buffer.place.to_string()),
        ("trace length", buffer.octets.len().to_string()),
        ("trace", hex(&buffer.octets)),
    ];
    fields.map(|(name, value)| (name.to_string(), value)).to_vec()
}
