// A reader case run by both programs: a first payload type and a body.
use crate::kinds::Verdict;
use crate::ours;
use crate::report::{self, Detail};
use reference::cases::reader::Case;
use reference::outcome::Outcome;
use reference::reader;
use reference::rules::Rules;

pub fn run(case: Case, rules: &impl Rules, detail: Detail) -> Verdict {
    let ours = ours::reader::read(case.first, &case.body);
    let reading = reader::read(case.first, &case.body, rules.chain());
    let reference = Outcome::of(&reading, &case.body, rules);
    Verdict::of(ours == reference, detail, || {
        let mut lines = report::chain(case.first, &case.body);
        lines.extend(report::compared(&ours.fields(), &reference.fields(), detail));
        lines
    })
}
