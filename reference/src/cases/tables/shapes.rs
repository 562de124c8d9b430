// The tables that random cases start from: empty, reached from empty ones, full, dense and hostile.
use super::{agreements, pairs, peers, pending, rules, spis};
use crate::agreed::Agreed;
use crate::operator::{other, OPERATORS};
use crate::policy::Policy;
use crate::rng::Rng;
use crate::summary::MAX_KEPT;
use crate::tables::{IkeRecord, IpsecRecord, Record, Tables, IKE_PLACES, IPSEC_PLACES};

#[derive(Debug, Clone, Copy)]
pub enum Shape {
    Empty,
    /// As calls and requests leave them, in any places.
    Reached,
    /// Reached, and all places of one table or of both in use.
    Full,
    /// Hardly a free place and few SPIs, so that there are many twins.
    Dense,
    /// Any values in any field, those of free places too.
    Hostile,
}

/// Numbers about the greatest ones that fields hold.
const MARKS: [u64; 8] = [0, 0, 1, 2, 6, 1 << 32, (1 << 32) + 1, u64::MAX];
const COUNTS: [u16; 7] = [0, 1, 15, 16, 17, 256, 65535];
const TALLIES: [u32; 5] = [0, 1, 256, u32::MAX - 1, u32::MAX];

impl Shape {
    pub fn tables(self, rng: &mut Rng) -> Tables {
        match self {
            Shape::Empty => with_policies([rules::policy(rng), rules::policy(rng)]),
            Shape::Reached => {
                // Often so many that an operator may be at its share, and not all.
                let ike = rng.below(IKE_PLACES + 1);
                let ipsec = rng.below(IPSEC_PLACES + 1);
                let in_use = [
                    if rng.one_in(3) { rng.between(20, IKE_PLACES - 1) } else { ike },
                    if rng.one_in(3) { rng.between(80, IPSEC_PLACES - 1) } else { ipsec },
                ];
                reached(rng, in_use)
            }
            Shape::Full => {
                let mut in_use = [IKE_PLACES, IPSEC_PLACES];
                let table = rng.below(3);
                if let Some(count) = in_use.get_mut(table) {
                    *count -= rng.below(3);
                }
                reached(rng, in_use)
            }
            Shape::Dense => unreached(rng, 60),
            Shape::Hostile => unreached(rng, 3),
        }
    }
}

fn with_policies(policies: [Policy; OPERATORS]) -> Tables {
    Tables { policies, ..Tables::empty() }
}

/// The operators of so many records, of which neither has more than this share: often as many as it may have, or as
/// few as the other leaves; which ones is left to chance.
fn shared(rng: &mut Rng, count: usize, share: usize) -> Vec<u8> {
    let (least, most) = (count.saturating_sub(share), count.min(share));
    let any = rng.between(least, most);
    let of_a = rng.pick(&[least, most, most, any, any]);
    let mut operators: Vec<u8> = (0..count).map(|number| u8::from(number >= of_a)).collect();
    if rng.one_in(2) {
        operators.iter_mut().for_each(|operator| *operator = other(*operator));
    }
    rng.shuffle(&mut operators);
    operators
}

/// So many of the places in use, which ones is left to chance; no SPI twice, no orphan, and no operator over its
/// shares, for which there may be fewer IPsec records.
fn reached(rng: &mut Rng, in_use: [usize; 2]) -> Tables {
    let mut tables = with_policies([rules::policy(rng), rules::policy(rng)]);
    let ike_places = some_places(rng, IKE_PLACES, in_use[0]);
    let peer_count = rng.between(1, peers::FEW.len());
    let operators = shared(rng, ike_places.len(), 20);
    for (number, (&place, &operator)) in ike_places.iter().zip(&operators).enumerate() {
        let mut record = reached_record(rng, spis::ike(number), peer_count);
        record.agreed.operator = operator;
        tables.ike_mut()[place] = record;
    }
    let owner_count = rng.below(ike_places.len() + 1);
    let owners = |operator: u8| {
        let own = |place: &&usize| tables.ike.records[**place].agreed.operator == operator;
        let of = |places: &[usize]| places.iter().filter(own).copied().collect::<Vec<usize>>();
        let some = of(&ike_places[..owner_count]);
        if some.is_empty() {
            of(&ike_places)
        } else {
            some
        }
    };
    let owners = [owners(0), owners(1)];
    let operators = shared(rng, in_use[1], 80);
    let places = some_places(rng, IPSEC_PLACES, in_use[1]);
    for (number, (place, operator)) in places.into_iter().zip(operators).enumerate() {
        let owners = &owners[usize::from(operator)];
        if owners.is_empty() {
            continue;
        }
        let IkeRecord { spi: owner, pair, .. } = tables.ike.records[rng.pick(owners)];
        // Where a check is pending, or came to an error, the pair is one that the IKE record had.
        let pair = if rng.one_in(3) { pairs::pair(rng) } else { pair };
        tables.ipsec_mut()[place] = IpsecRecord { spi: spis::ipsec(number), owner, pair };
    }
    tables
}

/// The first of the places, in an order left to chance.
fn some_places(rng: &mut Rng, places: usize, count: usize) -> Vec<usize> {
    let mut shuffled: Vec<usize> = (0..places).collect();
    for place in 0..count {
        shuffled.swap(place, rng.between(place, places - 1));
    }
    shuffled.truncate(count);
    shuffled
}

fn reached_record(rng: &mut Rng, spi: u64, peer_count: usize) -> IkeRecord {
    let (cloning, peer) = (u8::from(rng.one_in(2)), peers::among(rng, peer_count));
    let agreed = Agreed { mobike: 0, cloning, operator: 0, peer };
    let mut record = IkeRecord { spi, agreed, pair: pairs::pair(rng), ..IkeRecord::FREE };
    record.deleting = u8::from(rng.one_in(6));
    if rng.one_in(4) {
        return record;
    }
    let count = rng.below(MAX_KEPT + 1);
    record.agreed.mobike = 1;
    record.update_mark = rng.pick(&MARKS).min(1 << 32);
    record.list_mark = rng.pick(&MARKS).min(1 << 32);
    record.count = count as u16;
    record.addresses[..count].fill_with(|| pairs::address(rng));
    record.unknown = rng.pick(&TALLIES);
    if rng.one_in(2) {
        record.check = pending::kept(rng);
    }
    record
}

/// Few SPIs and owners, any values elsewhere; one place in so many is free, mostly not cleared.
fn unreached(rng: &mut Rng, free_in: usize) -> Tables {
    let mut tables = with_policies([rules::any_policy(rng), rules::any_policy(rng)]);
    // Mostly A's, mostly B's, or either's.
    let of_one = rng.pick(&[None, None, Some(0), Some(1)]);
    let few = rng.between(1, spis::FEW_IKE.len());
    let peer_count = rng.between(1, peers::FEW.len());
    for record in tables.ike_mut() {
        let free = rng.one_in(free_in);
        if !free || !rng.one_in(4) {
            *record = any_ike_record(rng);
            record.spi = if free { 0 } else { rng.pick(&spis::FEW_IKE[..few]) };
            if !rng.one_in(8) {
                record.agreed.peer = peers::among(rng, peer_count);
            }
            if let (Some(operator), false) = (of_one, rng.one_in(4)) {
                record.agreed.operator = operator;
            }
        }
    }
    for record in tables.ipsec_mut() {
        let free = rng.one_in(free_in);
        if !free || !rng.one_in(4) {
            let spi = if free { 0 } else { rng.pick(&spis::FEW_IPSEC) };
            let owner = rng.pick(&spis::FEW_IKE);
            *record = IpsecRecord { spi, owner, pair: pairs::any_pair(rng) };
        }
    }
    tables
}

fn any_ike_record(rng: &mut Rng) -> IkeRecord {
    let mut record = IkeRecord { pair: pairs::any_pair(rng), ..IkeRecord::FREE };
    record.agreed = agreements::any(rng);
    record.update_mark = rng.pick(&MARKS);
    record.list_mark = rng.pick(&MARKS);
    record.count = rng.pick(&COUNTS);
    record.addresses.fill_with(|| pairs::any_address(rng));
    record.unknown = rng.pick(&TALLIES);
    record.check = pending::any(rng);
    record.deleting = agreements::deleting(rng);
    record
}
