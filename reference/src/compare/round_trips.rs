// Round trips by both programs: what they read of what they write, and write of what they read.
use crate::kinds::Verdict;
use crate::ours;
use crate::report::{self, Detail};
use reference::asking::Arguments;
use reference::asking_fields;
use reference::cases::{reader, round_trips::Case};
use reference::cloning::{CloneReply, CloneRequest};
use reference::outcome::Outcome;
use reference::plain::{plainly_read, plainly_read_as_clone};
use reference::round_trips::{
    expected, is_clone_written_again, is_written_again, written_and_read, Content, Model, Program,
};
use reference::rules::Rules;
use reference::tables::Tables;
use reference::writer::Written;

/// The library.
struct Ours;

impl Program for Ours {
    fn read<'a>(&self, first: u8, body: &'a [u8]) -> Outcome<'a> {
        ours::reader::read(first, body)
    }

    fn write(&self, arguments: &Arguments) -> Written {
        ours::writer::write(arguments)
    }

    fn clone(&self, request: &CloneRequest, tables: &mut Tables) -> CloneReply {
        ours::clones::clone(request, tables).0.reply
    }
}

pub fn run(case: Case, rules: &impl Rules, detail: Detail) -> Verdict {
    let agrees = case.holds_of(&Ours, rules) && case.holds_of(&Model(rules), rules);
    Verdict::of(agrees, detail, || match &case {
        Case::Asked(arguments) => asked_lines(arguments, rules, detail),
        Case::Chain(chain) => chain_lines(chain, rules, detail),
    })
}

/// What is asked for, and what each program reads of what it writes beside what it must read.
fn asked_lines(arguments: &Arguments, rules: &impl Rules, detail: Detail) -> Vec<String> {
    let expected = fields(expected(arguments, rules));
    let ours = fields(written_and_read(&Ours, arguments));
    let reference = fields(written_and_read(&Model(rules), arguments));
    let mut lines = report::input(&asking_fields::of(arguments));
    for (name, read) in [("ours", ours), ("reference", reference)] {
        lines.extend(report::side_by_side([(name, &read), ("asked for", &expected)], detail));
    }
    lines
}

/// The fields of what is read; where nothing is written, those of nothing.
fn fields(content: Option<Content>) -> Vec<(String, String)> {
    let written = ("written".to_string(), content.is_some().to_string());
    [vec![written], content.unwrap_or_default().fields()].concat()
}

/// The chain, and whether each program writes it again beside whether it is plainly read.
fn chain_lines(chain: &reader::Case, rules: &impl Rules, detail: Detail) -> Vec<String> {
    let reader::Case { first, body } = chain;
    let fields = |again: bool, clone_again: bool| {
        let fields = [("the same chain", again), ("the same chain of a clone", clone_again)];
        fields.map(|(name, value)| (name.to_string(), value.to_string()))
    };
    let plain =
        fields(plainly_read(*first, body, rules), plainly_read_as_clone(*first, body, rules));
    let ours =
        fields(is_written_again(&Ours, *first, body), is_clone_written_again(&Ours, *first, body));
    let model = Model(rules);
    let reference = fields(
        is_written_again(&model, *first, body),
        is_clone_written_again(&model, *first, body),
    );
    let mut lines = report::chain(*first, body);
    for (name, again) in [("ours", ours), ("reference", reference)] {
        lines.extend(report::side_by_side([(name, &again), ("plainly read", &plain)], detail));
    }
    lines
}
