// Entries of which every field is drawn for itself, about the bounds of its room and of its octets.
use super::super::tables::{pairs, peers, spis};
use crate::rng::Rng;
use crate::rules::{Plain, TraceRules};
use crate::trace::entry::{Entry, Opening, Pair, Request, Rule};
use crate::trace::fields::{Field, MOST_OCTETS, MOST_RULES};

/// Lengths about those of NAT values and cookies, those that take another octet, and the greatest.
const LENGTHS: [usize; 14] =
    [0, 1, 7, 8, 19, 20, 21, 64, 65, 127, 128, 129, MOST_OCTETS - 1, MOST_OCTETS];

pub fn entry(rng: &mut Rng) -> Entry {
    match rng.below(9) {
        0 => Entry::OpenBoth(Opening {
            spi: number(rng, Field::IkeSpi),
            agreed: number(rng, Field::Agreed),
            pair: pair(rng),
            child: number(rng, Field::IpsecSpi),
            peer: number(rng, Field::Peer),
            cloning: number(rng, Field::Agreed),
            operator: number(rng, Field::Operator),
        }),
        1 => Entry::AddIpsec {
            spi: number(rng, Field::IpsecSpi),
            owner: number(rng, Field::IkeSpi),
            operator: number(rng, Field::Operator),
        },
        2 => Entry::CloseIke {
            spi: number(rng, Field::IkeSpi),
            operator: number(rng, Field::Operator),
        },
        3 => Entry::CloseIpsec {
            spi: number(rng, Field::IpsecSpi),
            operator: number(rng, Field::Operator),
        },
        4 => Entry::Request(Request {
            spi: number(rng, Field::IkeSpi),
            id: number(rng, Field::Id),
            pair: pair(rng),
            nat_source: string(rng, 20),
            nat_destination: string(rng, 20),
            first: number(rng, Field::FirstType),
            body: string(rng, 8),
            cookie: string(rng, 8),
            check_id: number(rng, Field::Id),
            operator: number(rng, Field::Operator),
        }),
        5 => Entry::CheckResponse {
            spi: number(rng, Field::IkeSpi),
            id: number(rng, Field::Id),
            first: number(rng, Field::FirstType),
            body: string(rng, 8),
            operator: number(rng, Field::Operator),
        },
        6 => Entry::Clone {
            spi: number(rng, Field::IkeSpi),
            new_spi: number(rng, Field::IkeSpi),
            first: number(rng, Field::FirstType),
            body: string(rng, 8),
            operator: number(rng, Field::Operator),
        },
        7 => Entry::MarkDeletion {
            spi: number(rng, Field::IkeSpi),
            operator: number(rng, Field::Operator),
        },
        _ => {
            let count = rng.pick_weighted(&[(4, 1), (2, 2), (1, 0), (1, 15), (1, MOST_RULES)]);
            let rules: Vec<Rule> = (0..count).map(|_| rule(rng)).collect();
            Entry::policy(&rules, number(rng, Field::Operator))
        }
    }
}

/// One that the field has room for.
pub fn number(rng: &mut Rng, field: Field) -> u64 {
    let most = Plain.most(field);
    let common = match field {
        Field::IkeSpi => rng.pick(&spis::FEW_IKE),
        Field::IpsecSpi => u64::from(rng.pick(&spis::FEW_IPSEC)),
        Field::Peer => u64::from(rng.pick(&peers::FEW)),
        Field::Family => rng.pick(&[4, 6]),
        Field::Port => rng.pick(&[500, 4500]),
        Field::FirstType => rng.pick(&[0, 41]),
        Field::PrefixLength => rng.pick(&[0, 24, 32, 33, 128, 129]),
        _ => 1,
    };
    let bits = rng.between(0, 63) as u32;
    let about = (1_u64 << bits).wrapping_sub(rng.below(2) as u64);
    let number = match rng.below(8) {
        0..=3 => common,
        4 => rng.below(3) as u64,
        5 => about,
        6 => rng.next_u64() >> bits,
        _ => most - rng.below(2) as u64,
    };
    if number <= most {
        number
    } else {
        number & most
    }
}

pub fn rule(rng: &mut Rng) -> Rule {
    Rule {
        family: number(rng, Field::Family),
        source: pairs::octets(rng),
        destination: pairs::octets(rng),
        source_length: number(rng, Field::PrefixLength),
        destination_length: number(rng, Field::PrefixLength),
    }
}

fn pair(rng: &mut Rng) -> Pair {
    let sound = pairs::pair(rng);
    if rng.one_in(2) {
        return Pair::from(&sound);
    }
    Pair {
        family: number(rng, Field::Family),
        source: pairs::octets(rng),
        destination: pairs::octets(rng),
        source_port: number(rng, Field::Port),
        destination_port: number(rng, Field::Port),
    }
}

/// Mostly of the length that is common.
fn string(rng: &mut Rng, common: usize) -> Vec<u8> {
    let length = if rng.one_in(4) { rng.pick(&LENGTHS) } else { common };
    rng.octets(length)
}
