// Changes of an entry's numbers, to such that their fields have no room for.
use crate::rng::Rng;
use crate::rules::{Plain, TraceRules};
use crate::trace::entry::{Entry, Opening, Pair, Rule};
use crate::trace::fields::{Field, MOST_OCTETS};

/// The numbers of an entry, rules past the count too.
pub fn numbers(entry: &mut Entry) -> Vec<(Field, &mut u64)> {
    match entry {
        Entry::OpenBoth(Opening { spi, agreed, pair, child, peer, cloning, operator }) => {
            let mut numbers = vec![(Field::IkeSpi, spi), (Field::Agreed, agreed)];
            numbers.extend(of_pair(pair));
            numbers.push((Field::IpsecSpi, child));
            numbers.extend([(Field::Peer, peer), (Field::Agreed, cloning)]);
            numbers.push((Field::Operator, operator));
            numbers
        }
        Entry::AddIpsec { spi, owner, operator } => {
            vec![(Field::IpsecSpi, spi), (Field::IkeSpi, owner), (Field::Operator, operator)]
        }
        Entry::CloseIke { spi, operator } | Entry::MarkDeletion { spi, operator } => {
            vec![(Field::IkeSpi, spi), (Field::Operator, operator)]
        }
        Entry::CloseIpsec { spi, operator } => {
            vec![(Field::IpsecSpi, spi), (Field::Operator, operator)]
        }
        Entry::Request(request) => {
            let mut numbers = vec![(Field::IkeSpi, &mut request.spi), (Field::Id, &mut request.id)];
            numbers.extend(of_pair(&mut request.pair));
            numbers.push((Field::FirstType, &mut request.first));
            numbers.push((Field::Id, &mut request.check_id));
            numbers.push((Field::Operator, &mut request.operator));
            numbers
        }
        Entry::CheckResponse { spi, id, first, operator, .. } => vec![
            (Field::IkeSpi, spi),
            (Field::Id, id),
            (Field::FirstType, first),
            (Field::Operator, operator),
        ],
        Entry::Clone { spi, new_spi, first, operator, .. } => vec![
            (Field::IkeSpi, spi),
            (Field::IkeSpi, new_spi),
            (Field::FirstType, first),
            (Field::Operator, operator),
        ],
        Entry::Policy { count, rules, operator } => {
            let mut numbers = vec![(Field::Count, count)];
            numbers.extend(rules.iter_mut().flat_map(of_rule));
            numbers.push((Field::Operator, operator));
            numbers
        }
    }
}

fn of_pair(pair: &mut Pair) -> [(Field, &mut u64); 3] {
    [
        (Field::Family, &mut pair.family),
        (Field::Port, &mut pair.source_port),
        (Field::Port, &mut pair.destination_port),
    ]
}

fn of_rule(rule: &mut Rule) -> [(Field, &mut u64); 3] {
    [
        (Field::Family, &mut rule.family),
        (Field::PrefixLength, &mut rule.source_length),
        (Field::PrefixLength, &mut rule.destination_length),
    ]
}

fn strings(entry: &mut Entry) -> Vec<&mut Vec<u8>> {
    match entry {
        Entry::Request(request) => vec![
            &mut request.nat_source,
            &mut request.nat_destination,
            &mut request.body,
            &mut request.cookie,
        ],
        Entry::CheckResponse { body, .. } | Entry::Clone { body, .. } => vec![body],
        _ => vec![],
    }
}

/// Makes one number, count or length larger than its field has room for, if there is any such.
pub fn enlarge(rng: &mut Rng, entry: &mut Entry) {
    let string = rng.below(9);
    if let Some(octets) = strings(entry).into_iter().nth(string) {
        octets.resize(MOST_OCTETS + rng.between(1, 2), 7);
        return;
    }
    let numbers = numbers(entry);
    let chosen = rng.below(numbers.len());
    if let Some((field, number)) = numbers.into_iter().nth(chosen) {
        let most = Plain.most(field);
        let more = [most.saturating_add(1), most.saturating_mul(2), u64::MAX];
        *number = rng.pick(&more);
    }
}
