// Redirects as two programs are compared on them: what is read of some data, what is written, and decisions in a row;
// and the laws that hold of these.
use super::data::{self, DataRead, Writing, Written};
use super::decision::{self, Decided, Redirect, Redirects};
use super::Notification;
use crate::rules::Rules;

/// A program's readers, writers and decision.
pub trait Redirecting {
    fn read<'a>(&self, of: Notification, data: &'a [u8]) -> DataRead<'a>;
    fn write(&self, of: Notification, writing: &Writing) -> Written;
    fn decide<'a>(&self, record: &mut Redirects, redirect: &'a Redirect) -> Decided<'a>;
}

/// This program.
pub struct Model<'r, R>(pub &'r R);

impl<R: Rules> Redirecting for Model<'_, R> {
    fn read<'a>(&self, of: Notification, data: &'a [u8]) -> DataRead<'a> {
        data::read(of, data, self.0.redirects())
    }

    fn write(&self, of: Notification, writing: &Writing) -> Written {
        data::write(of, writing, self.0.redirects())
    }

    fn decide<'a>(&self, record: &mut Redirects, redirect: &'a Redirect) -> Decided<'a> {
        decision::decide(record, redirect, self.0.redirects())
    }
}

/// Data to read, something to write, and decisions, each on the record that the one before left.
#[derive(Debug, Clone, PartialEq, Eq)]
pub struct Given {
    pub data: Vec<u8>,
    pub writing: Writing,
    pub record: Redirects,
    pub redirects: Vec<Redirect>,
}

/// What comes of it; readers and writers in the order of `Notification::ALL`.
#[derive(Debug, Clone, PartialEq, Eq)]
pub struct Outcome<'a> {
    pub read: [DataRead<'a>; 3],
    pub written: [Written; 3],
    /// With the record after each.
    pub decided: Vec<(Decided<'a>, Redirects)>,
}

impl<'a> Outcome<'a> {
    pub fn of(program: &impl Redirecting, given: &'a Given) -> Self {
        let mut record = given.record;
        let decided = given.redirects.iter().map(|redirect| {
            let decided = program.decide(&mut record, redirect);
            (decided, record)
        });
        Outcome {
            decided: decided.collect(),
            read: Notification::ALL.map(|of| program.read(of, &given.data)),
            written: Notification::ALL.map(|of| program.write(of, &given.writing)),
        }
    }

    /// Every field by name, to be shown.
    pub fn fields(&self) -> Vec<(String, String)> {
        let mut all = Vec::new();
        for (place, of) in Notification::ALL.iter().enumerate() {
            let read = self.read[place].fields().into_iter();
            all.extend(read.map(|(name, value)| (format!("{of:?} read: {name}"), value)));
            let written = self.written[place].fields().into_iter();
            all.extend(written.map(|(name, value)| (format!("{of:?} written: {name}"), value)));
        }
        for (place, (decided, Redirects { count, times })) in self.decided.iter().enumerate() {
            let fields = decided.fields().into_iter();
            all.extend(fields.map(|(name, value)| (format!("decision {place}: {name}"), value)));
            all.push((format!("decision {place}: record"), format!("{count} {times:?}")));
        }
        all
    }
}

/// What doesn't hold of a program: what it writes reads back as it was given, what it reads is written as the same
/// octets if its nonce may be written, and from a fresh record no sixth is accepted inside 300 seconds.
pub fn broken(program: &impl Redirecting, given: &Given, outcome: &Outcome) -> Vec<&'static str> {
    let pairs = || Notification::ALL.into_iter().zip(0..);
    let reads_back = pairs().all(|(of, place): (_, usize)| {
        let written = &outcome.written[place];
        written.number != 0 || is_read_back(program, of, &given.writing, written)
    });
    let writes_back = pairs().all(|(of, place): (_, usize)| {
        let read = &outcome.read[place];
        read.number != 0 || is_written_back(program, of, &given.data, read)
    });
    let accepted: Vec<u64> = outcome
        .decided
        .iter()
        .zip(&given.redirects)
        .filter(|((decided, _), _)| decided.number == 0)
        .map(|(_, redirect)| redirect.time)
        .collect();
    let laws = [
        (reads_back, "what is written reads back as it was given"),
        (writes_back, "what is read is written as the same octets"),
        (is_sparse(&accepted), "no sixth is accepted inside 300 seconds"),
    ];
    laws.into_iter().filter(|(holds, _)| !holds).map(|(_, law)| law).collect()
}

fn is_read_back(
    program: &impl Redirecting,
    of: Notification,
    writing: &Writing,
    written: &Written,
) -> bool {
    let read = program.read(of, written.output.get(..written.length).unwrap_or_default());
    let Writing { identity_type, identity, nonce, .. } = writing;
    let expected: (u8, &[u8], &[u8]) = match of {
        Notification::Redirect => (*identity_type, identity, nonce),
        Notification::RedirectedFrom => (*identity_type, identity, &[]),
        Notification::RedirectSupported => (0, &[], &[]),
    };
    read.number == 0 && (read.identity_type, read.identity.octets, read.nonce.octets) == expected
}

fn is_written_back(
    program: &impl Redirecting,
    of: Notification,
    data: &[u8],
    read: &DataRead,
) -> bool {
    let writing = Writing {
        identity_type: read.identity_type,
        identity: read.identity.octets.to_vec(),
        nonce: read.nonce.octets.to_vec(),
        output: vec![0x5a; 600],
    };
    let written = program.write(of, &writing);
    if matches!(read.nonce.length, 0 | 16..=256) {
        written.number == 0 && written.output.get(..written.length) == Some(data)
    } else {
        written.number == 30
    }
}

/// Of the times that were accepted, one behind the other, none is before the one before it, and no six are inside 300
/// seconds. It holds whatever the record was at first.
fn is_sparse(accepted: &[u64]) -> bool {
    let rising = accepted.windows(2).all(|two| two[0] <= two[1]);
    rising && accepted.windows(6).all(|six| six[5] - six[0] >= 300)
}
