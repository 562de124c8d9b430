// Writing an entry: every field that is too large is found first (22), then an output too short (2).
use super::entry::{Entry, Opening, Pair, Request, Rule};
use super::fields::{Field, Part};
use super::slots::Meant;
use crate::address::AddressOctets;
use crate::rules::{Plain, TraceRules};

/// What an entry consists of, in its order.
#[derive(Debug, Clone, Copy, PartialEq, Eq)]
pub enum Piece<'a> {
    Kind(u64),
    Number(Field, u64),
    Address(&'a AddressOctets),
    /// Those of a string, behind its length.
    Octets(&'a [u8]),
}

#[derive(Debug, Clone, PartialEq, Eq)]
pub struct Written {
    pub number: u8,
    /// 0 where nothing is written.
    pub length: usize,
    /// The whole output after the call.
    pub output: Vec<u8>,
    /// Whether what is around the output, and what is lent for reading, is as it was.
    pub around_kept: bool,
}

/// Writes an entry to the start of the output, or nothing.
pub fn write(entry: &Entry, output: &[u8], rules: &(impl TraceRules + ?Sized)) -> Written {
    write_meant(&Meant { entry: entry.clone(), within: true }, output, rules)
}

/// The same of an entry that was told by slots; what isn't within the source is as what is too large.
pub fn write_meant(meant: &Meant, output: &[u8], rules: &(impl TraceRules + ?Sized)) -> Written {
    let Meant { entry, within } = meant;
    let pieces = pieces(entry, rules);
    let fits = *within && pieces.iter().all(|piece| piece.fits(rules));
    let octets = octets(&pieces, rules);
    let too_short = output.len() < rules.needed(octets.len());
    let (number, length, output) = match rules.refusal(!fits, too_short) {
        None => (0, octets.len(), rules.output(output, &octets)),
        Some(refusal) => {
            let output = rules.output_refused(output, refusal, &octets);
            (refusal as u8, rules.length_refused(&octets), output)
        }
    };
    Written { number, length, output, around_kept: true }
}

/// The longest entry: a request.
pub const LONGEST: usize = 16_456;

/// The octets of an entry whose numbers all fit; of another one, what no reader takes.
pub fn entry_octets(entry: &Entry) -> Vec<u8> {
    octets(&pieces(entry, &Plain), &Plain)
}

/// The octets of a whole trace.
pub fn trace_octets(entries: &[Entry]) -> Vec<u8> {
    entries.iter().flat_map(entry_octets).collect()
}

fn octets(pieces: &[Piece], rules: &(impl TraceRules + ?Sized)) -> Vec<u8> {
    pieces.iter().flat_map(|piece| piece.octets(rules)).collect()
}

impl Piece<'_> {
    fn fits(&self, rules: &(impl TraceRules + ?Sized)) -> bool {
        match self {
            Piece::Number(field, value) => rules.fits(*field, *value),
            Piece::Kind(_) | Piece::Address(_) | Piece::Octets(_) => true,
        }
    }

    pub fn octets(&self, rules: &(impl TraceRules + ?Sized)) -> Vec<u8> {
        match self {
            Piece::Number(field, value) if rules.is_bare(*field) => vec![*value as u8],
            Piece::Kind(value) | Piece::Number(_, value) => rules.number(*value),
            Piece::Address(octets) => octets.to_vec(),
            Piece::Octets(octets) => octets.to_vec(),
        }
    }
}

/// The kind, then what each part of it consists of.
pub fn pieces<'a>(entry: &'a Entry, rules: &(impl TraceRules + ?Sized)) -> Vec<Piece<'a>> {
    let mut pieces = vec![Piece::Kind(entry.kind())];
    for part in rules.layout(entry.kind()) {
        match entry {
            Entry::Policy { operator, .. } if part == Part::Operator => {
                pieces.push(Piece::Number(Field::Operator, *operator));
            }
            Entry::Policy { count, rules: listed, .. } => {
                pieces.push(Piece::Number(Field::Count, *count));
                for rule in &listed[..rules.rules_in(*count)] {
                    let layout = rules.layout_of_rule().iter();
                    pieces.extend(layout.map(|&part| of_rule(rule, part)));
                }
            }
            Entry::Request(request) => pieces.extend(of_request(request, part)),
            Entry::CheckResponse { operator, .. } | Entry::Clone { operator, .. }
                if part == Part::Operator =>
            {
                pieces.push(Piece::Number(Field::Operator, *operator));
            }
            Entry::CheckResponse { spi, id, first, body, .. } => {
                pieces.extend(of_check_response(*spi, *id, *first, body, part));
            }
            Entry::Clone { spi, new_spi, first, body, .. } => {
                pieces.extend(of_clone(*spi, *new_spi, *first, body, part));
            }
            _ => pieces.push(of_table_call(entry, part)),
        }
    }
    pieces
}

fn of_table_call(entry: &Entry, part: Part) -> Piece<'_> {
    match (entry, part) {
        (Entry::OpenBoth(opening), _) => of_opening(opening, part),
        (
            Entry::AddIpsec { operator, .. }
            | Entry::CloseIke { operator, .. }
            | Entry::CloseIpsec { operator, .. }
            | Entry::MarkDeletion { operator, .. },
            Part::Operator,
        ) => Piece::Number(Field::Operator, *operator),
        (Entry::AddIpsec { owner, .. }, Part::IkeSpi) => Piece::Number(Field::IkeSpi, *owner),
        (Entry::AddIpsec { spi, .. }, _) => Piece::Number(Field::IpsecSpi, *spi),
        (Entry::CloseIke { spi, .. } | Entry::MarkDeletion { spi, .. }, _) => {
            Piece::Number(Field::IkeSpi, *spi)
        }
        (Entry::CloseIpsec { spi, .. }, _) => Piece::Number(Field::IpsecSpi, *spi),
        (
            Entry::Request(_)
            | Entry::Policy { .. }
            | Entry::CheckResponse { .. }
            | Entry::Clone { .. },
            _,
        ) => unreachable!("no call on records alone"),
    }
}

fn of_opening(opening: &Opening, part: Part) -> Piece<'_> {
    match part {
        Part::IkeSpi => Piece::Number(Field::IkeSpi, opening.spi),
        Part::Agreed => Piece::Number(Field::Agreed, opening.agreed),
        Part::IpsecSpi => Piece::Number(Field::IpsecSpi, opening.child),
        Part::Peer => Piece::Number(Field::Peer, opening.peer),
        Part::Cloning => Piece::Number(Field::Agreed, opening.cloning),
        Part::Operator => Piece::Number(Field::Operator, opening.operator),
        _ => of_pair(&opening.pair, part),
    }
}

/// Its length, then its octets.
fn string(octets: &[u8]) -> Vec<Piece<'_>> {
    vec![Piece::Number(Field::Length, octets.len() as u64), Piece::Octets(octets)]
}

fn of_check_response(spi: u64, id: u64, first: u64, body: &[u8], part: Part) -> Vec<Piece<'_>> {
    match part {
        Part::IkeSpi => vec![Piece::Number(Field::IkeSpi, spi)],
        Part::Id => vec![Piece::Number(Field::Id, id)],
        Part::FirstType => vec![Piece::Number(Field::FirstType, first)],
        _ => string(body),
    }
}

fn of_clone(spi: u64, new_spi: u64, first: u64, body: &[u8], part: Part) -> Vec<Piece<'_>> {
    match part {
        Part::IkeSpi => vec![Piece::Number(Field::IkeSpi, spi)],
        Part::NewSpi => vec![Piece::Number(Field::IkeSpi, new_spi)],
        Part::FirstType => vec![Piece::Number(Field::FirstType, first)],
        _ => string(body),
    }
}

fn of_request(request: &Request, part: Part) -> Vec<Piece<'_>> {
    match part {
        Part::IkeSpi => vec![Piece::Number(Field::IkeSpi, request.spi)],
        Part::Id => vec![Piece::Number(Field::Id, request.id)],
        Part::FirstType => vec![Piece::Number(Field::FirstType, request.first)],
        Part::NatSource => string(&request.nat_source),
        Part::NatDestination => string(&request.nat_destination),
        Part::Body => string(&request.body),
        Part::Cookie => string(&request.cookie),
        Part::CheckId => vec![Piece::Number(Field::Id, request.check_id)],
        Part::Operator => vec![Piece::Number(Field::Operator, request.operator)],
        _ => vec![of_pair(&request.pair, part)],
    }
}

fn of_pair(pair: &Pair, part: Part) -> Piece<'_> {
    match part {
        Part::Family => Piece::Number(Field::Family, pair.family),
        Part::Source => Piece::Address(&pair.source),
        Part::Destination => Piece::Address(&pair.destination),
        Part::SourcePort => Piece::Number(Field::Port, pair.source_port),
        _ => Piece::Number(Field::Port, pair.destination_port),
    }
}

fn of_rule(rule: &Rule, part: Part) -> Piece<'_> {
    match part {
        Part::Family => Piece::Number(Field::Family, rule.family),
        Part::Source => Piece::Address(&rule.source),
        Part::Destination => Piece::Address(&rule.destination),
        Part::SourceLength => Piece::Number(Field::PrefixLength, rule.source_length),
        _ => Piece::Number(Field::PrefixLength, rule.destination_length),
    }
}

#[cfg(test)]
mod tests {
    use super::*;
    use crate::trace::entry::Rules;

    fn written(entry: &Entry, output: &[u8]) -> (u8, usize, Vec<u8>) {
        let Written { number, length, output, .. } = write(entry, output, &Plain);
        (number, length, output)
    }

    #[test]
    fn closing_ike_7_takes_three_octets() {
        let closing = |operator| Entry::CloseIke { spi: 7, operator };
        assert_eq!(written(&closing(0), &[0xaa, 0xbb, 0xcc, 0xdd]), (0, 3, vec![2, 7, 0, 0xdd]));
        assert_eq!(written(&closing(1), &[0xaa, 0xbb, 0xcc]), (0, 3, vec![2, 7, 1]));
        assert_eq!(written(&closing(2), &[0xaa, 0xbb, 0xcc]), (22, 0, vec![0xaa, 0xbb, 0xcc]));
        let closing = closing(1);
        assert_eq!(written(&closing, &[0xaa, 0xbb]), (2, 0, vec![0xaa, 0xbb]));
        assert_eq!(written(&closing, &[]), (2, 0, vec![]));
    }

    #[test]
    fn too_large_comes_before_too_short_and_neither_writes() {
        for spi in [1 << 32, u64::MAX] {
            let closing = Entry::CloseIpsec { spi, operator: 1 };
            assert_eq!(written(&closing, &[1; 20]), (22, 0, vec![1; 20]));
            assert_eq!(written(&closing, &[]), (22, 0, vec![]));
        }
        let last = Entry::AddIpsec { spi: u64::from(u32::MAX), owner: u64::MAX, operator: 1 };
        assert_eq!(written(&last, &[]).0, 2);
        assert_eq!(written(&last, &[0; 17]).1, 17);
    }

    #[test]
    fn strings_and_lists_have_their_longest() {
        let request =
            |length| Entry::Request(Request { body: vec![0; length], ..Request::default() });
        assert_eq!(written(&request(4096), &[0; 5000]).0, 0);
        assert_eq!(written(&request(4097), &[0; 5000]).0, 22);
        assert_eq!(written(&request(4097), &[]).0, 22);
        let policy =
            |count| Entry::Policy { count, rules: Box::new(Rules::default()), operator: 1 };
        assert_eq!(written(&policy(16), &[0; 600]).1, 2 + 16 * 35 + 1);
        assert_eq!(written(&policy(17), &[0; 600]).0, 22);
        assert_eq!(written(&policy(16), &[0; 500]).0, 2);
    }

    #[test]
    fn rules_past_the_count_are_not_looked_at() {
        let mut rules = Rules::default();
        rules[1].family = 256;
        let policy = |count| Entry::Policy { count, rules: Box::new(rules), operator: 0 };
        assert_eq!(written(&policy(1), &[0; 600]).1, 38);
        assert_eq!(written(&policy(2), &[0; 600]).0, 22);
    }

    #[test]
    fn the_longest_entries_have_as_many_octets_as_they_should() {
        let most =
            Pair { family: 255, source_port: 65_535, destination_port: 65_535, ..Pair::default() };
        let request = Entry::Request(Request {
            spi: u64::MAX,
            id: u64::from(u32::MAX),
            pair: most,
            nat_source: vec![0; 4096],
            nat_destination: vec![0; 4096],
            first: 255,
            body: vec![0; 4096],
            cookie: vec![0; 4096],
            check_id: u64::from(u32::MAX),
            operator: 1,
        });
        assert_eq!(entry_octets(&request).len(), LONGEST);
        let rule =
            Rule { family: 255, source_length: 255, destination_length: 255, ..Rule::default() };
        assert_eq!(entry_octets(&Entry::policy(&[rule; 16], 1)).len(), 611);
    }
}
