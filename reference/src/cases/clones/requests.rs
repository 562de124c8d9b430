// Random requests to clone, and tables changed so that they may be done or come about one refusal.
use super::super::operators;
use super::super::reader::draft::{ChainDraft, Draft};
use super::super::reader::{self, atoms, damage::Damage, mutation};
use super::super::tables::{agreements, scripts, spis};
use crate::agreed::Agreed;
use crate::cloning::CloneRequest;
use crate::notify::NotifyType;
use crate::operator::other;
use crate::reader::MAX_BODY;
use crate::request::LEAST_OUTPUT;
use crate::rng::Rng;
use crate::rules::Plain;
use crate::tables::{find, free_place, Record, Tables, IKE_PLACES};

/// Makes cloning agreed in the record that the SPI means, if there is one, mostly with no mark for being deleted and a
/// free place, and gives its peer so many records as are about the limit.
pub fn suit(rng: &mut Rng, tables: &mut Tables, spi: u64) {
    let Some(meant) = find(&tables.ike.records, spi, &Plain) else { return };
    let yes = agreements::yes(rng);
    let records = tables.ike_mut();
    if records[meant].agreed.cloning == 0 {
        records[meant].agreed.cloning = yes;
    }
    if !rng.one_in(6) {
        records[meant].deleting = 0;
    }
    if free_place(records, &Plain).is_none() && meant + 1 < IKE_PLACES && !rng.one_in(4) {
        // Not cleared; above the record that is meant, which is the lowest of its SPI.
        records[rng.between(meant + 1, IKE_PLACES - 1)].spi = 0;
    }
    if !rng.one_in(6) {
        give_peer(rng, tables, meant);
    }
}

/// Gives the peer of this record 1 to 6 records of its operator in all, as far as there are others, and some of the
/// other operator's and some free places its number.
fn give_peer(rng: &mut Rng, tables: &mut Tables, meant: usize) {
    let records = tables.ike_mut();
    let Agreed { peer, operator, .. } = records[meant].agreed;
    let mut others: Vec<usize> = (0..IKE_PLACES).filter(|&place| place != meant).collect();
    rng.shuffle(&mut others);
    let mut left = rng.pick(&[0, 1, 2, 2, 2, 3, 3, 3, 4, 5]);
    for place in others {
        let record = &mut records[place];
        let is_its = if record.is_in_use() { left > 0 } else { rng.one_in(3) };
        left -= usize::from(is_its && record.is_in_use());
        record.agreed.peer = if is_its { peer } else { peer ^ (1 << rng.below(32)) };
        if is_its {
            record.agreed.operator = operator;
        } else if rng.one_in(6) {
            // Of the same peer, but the other operator's.
            (record.agreed.peer, record.agreed.operator) = (peer, other(operator));
        }
    }
}

/// With any chain that may come.
pub fn request(rng: &mut Rng, tables: &Tables, spi: u64) -> CloneRequest {
    let reader::Case { first, body } = chain(rng);
    let (new_spi, output) = (new_spi(rng, tables, spi), output(rng));
    let operator = operators::drawn(rng, operators::of_ike(tables, spi));
    CloneRequest { spi, new_spi, first, body, operator, output }
}

/// One in which nothing can be refused but by the tables.
pub fn plain_request(rng: &mut Rng, tables: &Tables, spi: u64) -> CloneRequest {
    let reader::Case { first, body } = asking(rng, 1).assemble();
    let new_spi = new_spi(rng, tables, spi).max(1);
    let operator = operators::of_ike(tables, spi).unwrap_or_else(|| operators::one(rng));
    CloneRequest { spi, new_spi, first, body, operator, output: rng.octets(LEAST_OUTPUT) }
}

/// Mostly one that is hardly in use; else that of a record, the original's own, one of few, or 0.
fn new_spi(rng: &mut Rng, tables: &Tables, own: u64) -> u64 {
    let other = spis::ike(IKE_PLACES + rng.below(40));
    let in_use = scripts::ike_spi(rng, tables, 30);
    let few = rng.pick(&spis::FEW_IKE);
    rng.pick_weighted(&[(20, other), (3, in_use), (1, own), (2, few), (1, 0)])
}

fn output(rng: &mut Rng) -> Vec<u8> {
    let length =
        rng.pick_weighted(&[(20, LEAST_OUTPUT), (8, 129), (6, 300), (2, LEAST_OUTPUT - 1), (1, 0)]);
    rng.octets(length)
}

fn chain(rng: &mut Rng) -> reader::Case {
    match rng.below(20) {
        0 => reader::random(rng),
        1 => {
            let mut chain = asking(rng, 8);
            Damage::any(rng).apply(rng, &mut chain);
            chain.assemble()
        }
        2 => {
            let mut chain = asking(rng, 8);
            let flawed = flawed(rng);
            let place = rng.between(0, chain.payloads.len());
            chain.payloads.insert(place, flawed);
            if rng.one_in(3) {
                Damage::any(rng).apply(rng, &mut chain);
            }
            chain.assemble()
        }
        3 => {
            let mut chain = asking(rng, 8).assemble();
            mutation::mutate(rng, &mut chain);
            chain
        }
        4 => long(rng),
        _ => asking(rng, 8).assemble(),
    }
}

/// A chain without a flaw: what an IKE rekey has, CLONE_IKE_SA but for one in so many, and more.
fn asking(rng: &mut Rng, without_in: usize) -> ChainDraft {
    let mut payloads: Vec<Draft> = [33, 40, 34]
        .into_iter()
        .map(|payload_type| {
            let size = rng.pick(&[0, 4, 12, 32]);
            Draft::payload(payload_type, 0, rng.octets(size))
        })
        .collect();
    if without_in == 1 || !rng.one_in(without_in) {
        payloads.push(of_clones(rng, NotifyType::CLONE_IKE_SA));
    }
    for _ in 0..rng.pick(&[0, 0, 0, 1, 2, 3]) {
        payloads.push(match rng.below(7) {
            0 => atoms::skipped(rng),
            1 => atoms::known_notify(rng, NotifyType::MOBIKE_SUPPORTED),
            2 => atoms::known_notify(rng, NotifyType::NAT_DETECTION_SOURCE_IP),
            3 if without_in == 1 => of_clones(rng, NotifyType::CLONE_IKE_SA),
            3 | 4 => of_clones(rng, NotifyType::CLONE_IKE_SA_SUPPORTED),
            5 => unknown_notify(rng),
            _ => atoms::unknown_payload(rng),
        });
    }
    for once in [NotifyType::UPDATE_SA_ADDRESSES, NotifyType::COOKIE2] {
        if rng.one_in(6) {
            payloads.push(atoms::known_notify(rng, once));
        }
    }
    rng.shuffle(&mut payloads);
    ChainDraft::of(payloads)
}

/// One of the two, with bits set that are ignored on reading or none.
fn of_clones(rng: &mut Rng, notify_type: NotifyType) -> Draft {
    let mut draft = Draft::notify(notify_type, &[]);
    if rng.one_in(4) {
        (draft.flags, draft.content[0]) = (rng.octet(), rng.octet());
    }
    draft
}

/// One that is unknown in every chain.
fn unknown_notify(rng: &mut Rng) -> Draft {
    loop {
        let draft = atoms::unknown_notify(rng);
        if !NotifyType::OF_CLONES.iter().any(|&it| draft.is_notify(it)) {
            return draft;
        }
    }
}

/// One of the two with data, with an SPI, or with one past its length.
fn flawed(rng: &mut Rng) -> Draft {
    let notify_type = rng.pick(&NotifyType::OF_CLONES);
    let (spi_size, rest) =
        rng.pick(&[(0, 1), (0, 4), (1, 1), (8, 8), (8, 9), (1, 3), (2, 1), (255, 0)]);
    Draft::notify_with_spi(notify_type, spi_size, &rng.octets(rest))
}

/// Bodies about the longest, with CLONE_IKE_SA first or last.
fn long(rng: &mut Rng) -> reader::Case {
    let clone = Draft::notify(NotifyType::CLONE_IKE_SA, &[]);
    let rest = MAX_BODY - clone.size() + rng.between(0, 2) - 1;
    let filler = match rng.below(3) {
        0 => vec![Draft::payload(33, 0, vec![7; rest - 4])],
        1 => vec![Draft::payload(33, 0, vec![]); rng.between(1_020, 1_023)],
        _ => {
            let first = Draft::payload(40, 0, vec![1; rest - 4 - 4_000]);
            [vec![first], vec![Draft::payload(200, 0, vec![]); 1_000]].concat()
        }
    };
    let payloads =
        if rng.one_in(2) { [vec![clone], filler].concat() } else { [filler, vec![clone]].concat() };
    ChainDraft::of(payloads).assemble()
}
