// The rows: which call each counts, on what, and what it must tell.
use crate::chains::{self, NOTIFY, SKIPPED};
use crate::job::{
    draft, Asking, Checking, Cloning, Deciding, Handling, Job, OpeningBoth, ELSEWHERE,
};
use unmavreth::Flag;

/// In which table a row stands.
#[derive(Clone, Copy, PartialEq, Eq)]
pub enum Kind {
    Call,
    /// A reading of so many octets.
    ByOctets(u64),
    /// An accepted check that moves so many IPsec records.
    ByRecords(u64),
    /// A check of the policy, beside one bit by bit.
    Policy,
    /// A decision on a REDIRECT, which the second program does not make.
    Redirect,
}

/// Fields by name, with the values that they must have.
pub type Expected = Vec<(&'static str, u64)>;

pub struct Row {
    pub key: String,
    pub title: &'static str,
    pub kind: Kind,
    /// Makes what the call is given. Only the counted row's is made, so that what the heap held before
    /// is the same whichever row it is.
    pub job: Box<dyn Fn() -> Job>,
    pub expected: Expected,
}

pub const READ_UPDATE: &str = "update-read";
pub const HANDLE_UPDATE: &str = "update-request";

pub fn all() -> Vec<Row> {
    let mut rows = the_update();
    rows.extend(long_chains());
    rows.extend(full_tables());
    rows.extend(refusals());
    rows.extend(openings());
    rows.push(cloned());
    rows.extend(redirects());
    rows.extend(initiator());
    rows.extend([256, 512, 1024, 2048, 4096].map(by_octets));
    rows.extend([0, 32, 64, 128].map(by_records));
    rows.extend(policy());
    rows
}

fn row(
    key: &str,
    title: &'static str,
    job: impl Fn() -> Job + 'static,
    expected: &[(&'static str, u64)],
) -> Row {
    let (key, job, expected) = (key.to_string(), Box::new(job), expected.to_vec());
    Row { key, title, kind: Kind::Call, job, expected }
}

fn reading(first: u8, body: Vec<u8>) -> Job {
    Job::Read { first, body }
}

fn handling(first: u8, body: Vec<u8>) -> Job {
    Job::Handle(Box::new(Handling::of(first, body)))
}

fn owning(records: u64) -> Job {
    Job::Check(Box::new(Checking::owning(records as usize)))
}

const APPLIED: [(&str, u64); 5] =
    [("number", 0), ("update", 1), ("list", 1), ("payloads", 6), ("length", 80)];

const ACCEPTED: [(&str, u64); 4] = [("number", 0), ("outcome", 5), ("payloads", 1), ("tally", 0)];

fn the_update() -> Vec<Row> {
    let read = || reading(NOTIFY, chains::update());
    let handled = || handling(NOTIFY, chains::update());
    let six = [("number", 0), ("payloads", 6)];
    vec![
        row(READ_UPDATE, "the 112-octet chain, read", read, &six),
        row(HANDLE_UPDATE, "the 112-octet chain, a whole request", handled, &APPLIED),
    ]
}

fn long_chains() -> Vec<Row> {
    let read = || reading(SKIPPED, chains::skipped(4096));
    let handled = || handling(SKIPPED, chains::skipped(4096));
    let unknown = || reading(NOTIFY, chains::unknown_notifies(4096));
    let skipped = [("number", 0), ("payloads", 1024)];
    let tallied = [("number", 0), ("payloads", 512), ("unknown_notifies", 512)];
    vec![
        row("skipped-read", "4,096 octets of 4-octet payloads, read", read, &skipped),
        row("skipped-request", "the same, a whole request", handled, &skipped),
        row("unknown-read", "512 unknown Notifies of 8 octets, read", unknown, &tallied),
    ]
}

fn full_tables() -> Vec<Row> {
    let read = || reading(NOTIFY, chains::full_list());
    let handled = || handling(NOTIFY, chains::full_list());
    let listed = [("number", 0), ("payloads", 16), ("addresses", 16)];
    let replaced = [("number", 0), ("list", 1), ("left_off", 0), ("length", 0)];
    let last = || Job::Handle(Box::new(Handling::owning(128)));
    let applied = "the 112-octet chain, to the last of 32 IKE records";
    let moved = "the response to its check, accepted: 128 IPsec records move";
    vec![
        row("list-read", "16 ADDITIONAL_IP6_ADDRESS, read", read, &listed),
        row("list-request", "the same, a whole request", handled, &replaced),
        row("last-request", applied, last, &APPLIED),
        row("moved", moved, || owning(128), &ACCEPTED),
    ]
}

/// The request that is applied, changed.
fn changed(change: fn(&mut Handling)) -> Job {
    let mut handling = Handling::of(NOTIFY, chains::update());
    change(&mut handling);
    Job::Handle(Box::new(handling))
}

/// A request that must be answered with this number, its title's.
fn refused(number: u64, title: &'static str, job: fn() -> Job) -> Row {
    let told = [("number", number), ("update", 0), ("list", 0)];
    row(&format!("refused-{number}"), title, job, &told)
}

fn refusals() -> Vec<Row> {
    vec![
        refused(1, "refused 1: a NAT value of 19 octets", || {
            changed(|of| of.nat_source.truncate(19))
        }),
        refused(2, "refused 2: an output of 127 octets", || changed(|of| of.room = 127)),
        refused(3, "refused 3: a body of 4,097 octets", || handling(SKIPPED, vec![0; 4097])),
        refused(4, "refused 4: no such record", || changed(|of| of.spi = 9)),
        refused(5, "refused 5: MOBIKE not agreed", || {
            changed(|of| of.gateway.ike[0].agreed.mobike = Flag::NO)
        }),
        refused(61, "refused 61: malformed at the first payload", || {
            handling(NOTIFY, chains::malformed())
        }),
        refused(7, "refused 7: an unknown critical payload", || handling(200, vec![0, 0x80, 0, 4])),
        refused(8, "refused 8: addresses altered on the way", || {
            handling(NOTIFY, chains::altered())
        }),
        refused(9, "refused 9: the pair not acceptable", || changed(|of| of.pair = ELSEWHERE)),
        row("refused-14", "refused 14: a response to another check", late, &[("number", 14)]),
    ]
}

/// The response to a check that another one has taken the place of.
fn late() -> Job {
    Job::Check(Box::new(Checking { id: 0, ..Checking::owning(128) }))
}

fn openings() -> Vec<Row> {
    let empty = || Job::Open(Box::new(OpeningBoth::on_empty()));
    let full = || Job::Open(Box::new(OpeningBoth::on_full()));
    let share = || Job::Open(Box::new(OpeningBoth::at_share()));
    let opened = "an IKE record and its first IPsec record, opened on empty tables";
    vec![
        row("opened", opened, empty, &[("number", 0)]),
        row("opened-full", "the same, refused 10: full tables", full, &[("number", 10)]),
        row(
            "opened-share",
            "the same, refused 43: the operator has 80 IPsec records",
            share,
            &[("number", 43)],
        ),
    ]
}

fn cloned() -> Row {
    let title = "a rekey of 160 octets with CLONE_IKE_SA, the last of 31 IKE records cloned";
    let cloned = [("number", 0), ("payloads", 4), ("length", 8)];
    row("cloned", title, || Job::Clone(Box::new(Cloning::of_last())), &cloned)
}

fn redirects() -> [Row; 2] {
    let deciding = |since| move || Job::Decide(Box::new(Deciding::after(since)));
    let accepted = "a REDIRECT with a nonce of 32 octets, the sixth after 300 seconds, accepted";
    let refused = "the same, refused 34: the sixth within 300 seconds";
    [
        row(
            "redirect",
            accepted,
            deciding(300),
            &[("number", 0), ("identity_type", 1), ("count", 5)],
        ),
        row("redirect-34", refused, deciding(299), &[("number", 34), ("count", 5)]),
    ]
    .map(|row| Row { kind: Kind::Redirect, ..row })
}

fn initiator() -> Vec<Row> {
    let written = [("number", 0), ("first", 41), ("length", 112)];
    let accepted = [("number", 0), ("outcome", 5), ("payloads", 3), ("tally", 0)];
    let response = || Job::Assess { first: NOTIFY, body: chains::response() };
    vec![
        row(
            "written",
            "the 112-octet request, written",
            || Job::Write(Box::new(draft())),
            &written,
        ),
        row("assessed", "its 80-octet response, assessed", response, &accepted),
    ]
}

fn by_octets(octets: u64) -> Row {
    let job = move || reading(SKIPPED, chains::skipped(octets as usize));
    let expected = [("number", 0), ("payloads", octets / 4)];
    let row = row(&format!("octets-{octets}"), "", job, &expected);
    Row { kind: Kind::ByOctets(octets), ..row }
}

fn by_records(records: u64) -> Row {
    let row = row(&format!("records-{records}"), "", move || owning(records), &ACCEPTED);
    Row { kind: Kind::ByRecords(records), ..row }
}

/// Bit 126 of an address, in its last octet.
const BIT_126: u8 = 2;

fn policy() -> [Row; 2] {
    let asking =
        |source, destination| move || Job::Acceptable(Box::new(Asking::ipv6(source, destination)));
    let refused = [("acceptable", 0)];
    let source = "16 rules of /127, IPv6: each source misses by bit 126";
    let destination = "the same: each source matches, each destination misses by bit 126";
    [
        row("policy-source", source, asking(BIT_126, 0), &refused),
        row("policy-destination", destination, asking(0, BIT_126), &refused),
    ]
    .map(|row| Row { kind: Kind::Policy, ..row })
}

#[cfg(test)]
mod tests {
    use super::*;
    use crate::side::Side;
    use crate::{ours, told};

    #[test]
    fn every_side_tells_what_is_expected() {
        for row in all() {
            let job = (row.job)();
            for told in Side::ALL.into_iter().filter_map(|side| side.told(&job)) {
                let checked = told::check(&ours::told(&job), &told, &row.expected);
                assert_eq!(checked, Ok(()), "{}", row.key);
            }
        }
    }

    #[test]
    fn another_answer_is_seen() {
        let [elsewhere, update] = ["refused-9", HANDLE_UPDATE].map(|key| {
            let rows = all();
            let row = rows.iter().find(|row| row.key == key).expect("there is such a row");
            ours::told(&(row.job)())
        });
        assert!(told::check(&update, &elsewhere, &vec![]).is_err());
        assert!(told::check(&update, &update, &vec![("number", 9)]).is_err());
        assert!(told::check(&update, &update, &vec![("number", 0)]).is_ok());
    }

    #[test]
    fn every_row_has_a_key_of_its_own() {
        let mut keys: Vec<String> = all().into_iter().map(|row| row.key).collect();
        let count = keys.len();
        keys.sort();
        keys.dedup();
        assert_eq!(keys.len(), count);
    }
}
