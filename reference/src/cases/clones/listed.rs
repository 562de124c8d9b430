// The requests to clone that every run begins with: each check, chain, agreement, peer, place and SPI.
use super::super::operators::{divide, of_ike, MORE_OCTETS};
use super::super::reader::draft::{sequences, ChainDraft, Draft};
use super::super::reader::{self, listed as chains};
use super::super::requests::listed::setting::{cookie, unknown, unknown_critical, update};
use super::super::tables::listed::contents::{self, NEW_IKE};
use super::super::tables::{agreements::YES, lengths, peers, spis};
use super::Case;
use crate::agreed::Agreed;
use crate::chain::NOTIFY;
use crate::cloning::CloneRequest;
use crate::notify::NotifyType;
use crate::reader::MAX_BODY;
use crate::tables::{IkeRecord, Tables, IKE_PLACES};

pub fn all() -> Vec<Case> {
    let mut cases = [
        together(),
        agreements(),
        marks(),
        peer_counts(),
        peers_alike(),
        free_places(),
        spis_alike(),
        twins(),
        each_outcome_on(&other_tables()),
        outputs(),
        orphans(),
        sizes(),
        several(),
        body_lengths(),
        listed_chains(),
    ]
    .concat();
    for Case { tables, request } in &mut cases {
        request.operator = of_ike(tables, request.spi).unwrap_or(0);
    }
    [octets(), shares(), of_two_operators(), cases].concat()
}

/// The place of the record that is meant, which is A's; place 0 has an SPI with the same low 32 bits.
const PLACE: usize = 1;

fn spi() -> u64 {
    spis::ike(PLACE)
}

/// No field is 0 and two places are free but not cleared; each peer has one record, and the one that is meant isn't
/// being deleted.
fn tables() -> Tables {
    let mut tables = contents::with_free(&[5, 20], &[]);
    tables.ike_mut()[PLACE].deleting = 0;
    tables.ike_mut()[PLACE].unknown = 9;
    tables
}

fn tables_with(change: impl Fn(&mut [IkeRecord; IKE_PLACES])) -> Tables {
    let mut tables = tables();
    change(tables.ike_mut());
    tables
}

fn asked() -> Draft {
    Draft::notify(NotifyType::CLONE_IKE_SA, &[])
}

fn supported() -> Draft {
    Draft::notify(NotifyType::CLONE_IKE_SA_SUPPORTED, &[])
}

fn request(payloads: &[Draft]) -> CloneRequest {
    let reader::Case { first, body } = ChainDraft::of(payloads.to_vec()).assemble();
    let output = (0..=255).chain(0..44).collect();
    CloneRequest { spi: spi(), new_spi: NEW_IKE, first, body, operator: 0, output }
}

/// What a rekey has, and something to tally.
fn cloning() -> CloneRequest {
    let skipped = |payload_type| Draft::payload(payload_type, 0, vec![1; 8]);
    request(&[asked(), skipped(33), skipped(40), skipped(34), unknown()])
}

fn case(request: CloneRequest) -> Case {
    Case { tables: tables(), request }
}

fn case_on(tables: Tables) -> Case {
    Case { tables, request: cloning() }
}

/// An argument or a table that is passed or fails a check.
type Choice = fn(&mut Case);

/// The ways to pass or fail of each check.
fn choices() -> Vec<Vec<Choice>> {
    let nothing: Choice = |_| {};
    vec![
        vec![
            nothing,
            |case| case.request.spi = 0,
            |case| case.request.spi = spis::ike(IKE_PLACES),
            |case| case.tables.ike_mut()[PLACE].agreed.cloning = 0,
            |case| case.tables.ike_mut()[PLACE].agreed.mobike = 0,
        ],
        vec![
            nothing,
            |case| case.request.new_spi = 0,
            |case| case.request.new_spi = spi(),
            |case| case.request.new_spi = spis::ike(30),
        ],
        vec![nothing, |case| case.request.output.truncate(127)],
        vec![
            nothing,
            |case| case.request.body = vec![0; MAX_BODY + 1],
            // The first payload is a Notify under 8 octets.
            |case| case.request.body[3] = 7,
            |case| (case.request.first, case.request.body[1]) = (200, 0x80),
            |case| case.request.body[7] = 0x30,
            |case| (case.request.first, case.request.body) = (0, vec![]),
        ],
        vec![nothing, |case| case.tables.ike_mut()[PLACE].deleting = 1],
        vec![nothing, |case| {
            for place in [5, 20] {
                case.tables.ike_mut()[place].spi = spis::ike(place);
            }
        }],
        vec![nothing, |case| has_peer(case.tables.ike_mut(), &[0, 2, 31])],
    ]
}

/// Gives these places the peer and the operator of the record that is meant.
fn has_peer(records: &mut [IkeRecord; IKE_PLACES], places: &[usize]) {
    places.iter().for_each(|&place| has_peer_of(records, place, PLACE));
}

/// Gives a place the peer and the operator of another one.
fn has_peer_of(records: &mut [IkeRecord; IKE_PLACES], place: usize, of: usize) {
    let Agreed { peer, operator, .. } = records[of].agreed;
    (records[place].agreed.peer, records[place].agreed.operator) = (peer, operator);
}

/// Every choice of each with every one of the others.
fn together() -> Vec<Case> {
    let mut cases = vec![case(cloning())];
    for choices in choices() {
        let chosen = cases.iter().flat_map(|case| {
            choices.iter().map(move |choice| {
                let mut case = case.clone();
                choice(&mut case);
                case
            })
        });
        cases = chosen.collect();
    }
    cases
}

/// Each octet of what is agreed, of either sort; a clone keeps both as they stand.
fn agreements() -> Vec<Case> {
    let with = |mobike, cloning| {
        case_on(tables_with(|records| {
            records[PLACE].agreed = Agreed { mobike, cloning, ..records[PLACE].agreed };
        }))
    };
    let of_octet = |octet| [with(octet, 255), with(1, octet), with(0, octet)];
    (0..=255).flat_map(of_octet).collect()
}

/// Each octet that may stand in the mark for being deleted, of the record and of all others.
fn marks() -> Vec<Case> {
    let own = |octet| tables_with(|records| records[PLACE].deleting = octet);
    let others = |octet: u8| {
        tables_with(|records| {
            let others = records.iter_mut().enumerate().filter(|(place, _)| *place != PLACE);
            others.for_each(|(_, record)| record.deleting = octet);
        })
    };
    (0..=255).flat_map(|octet| [own(octet), others(octet)]).map(case_on).collect()
}

/// So many records of the peer, at low and at high places, in use and free, being deleted or not, and twins of one
/// another.
fn peer_counts() -> Vec<Case> {
    let mut cases = Vec::new();
    for count in 0..=8 {
        for free in 0..=2 {
            for start in [0, 2, 8, IKE_PLACES - 8] {
                for deleting in [0, 1, 255] {
                    let tables = tables_with(|records| {
                        let places = (start..).filter(|place| ![PLACE, 5, 20].contains(place));
                        let places: Vec<usize> =
                            places.take(count).map(|it| it % IKE_PLACES).collect();
                        has_peer(records, &places);
                        has_peer(records, &[5, 20][..free]);
                        places.iter().for_each(|&place| records[place].deleting = deleting);
                    });
                    cases.push(case_on(tables));
                }
            }
        }
    }
    for count in 1..=5 {
        let tables = tables_with(|records| {
            let places: Vec<usize> = (10..10 + count).collect();
            has_peer(records, &places);
            places.iter().for_each(|&place| records[place].spi = spis::ike(10));
        });
        cases.push(case_on(tables.clone()));
        // The record that is meant is among its twins.
        let request = CloneRequest { spi: spis::ike(10), ..cloning() };
        let mut tables = tables;
        tables.ike_mut()[10].deleting = 0;
        cases.push(Case { tables, request });
    }
    for free in 1..IKE_PLACES {
        // All records have one peer, and all but so many places are free.
        let tables = tables_with(|records| {
            has_peer(records, &(0..IKE_PLACES).collect::<Vec<_>>());
            let others = (0..IKE_PLACES).filter(|&place| place != PLACE);
            others.take(free).for_each(|place| records[place].spi = 0);
        });
        cases.push(case_on(tables));
    }
    cases
}

/// Peers that are alike in one half of their bits.
fn peers_alike() -> Vec<Case> {
    let mut cases = Vec::new();
    for own in peers::FEW {
        for other in peers::FEW {
            for count in [3, 4] {
                cases.push(case_on(tables_with(|records| {
                    records[PLACE].agreed.peer = own;
                    for record in &mut records[8..8 + count] {
                        (record.agreed.peer, record.agreed.operator) = (other, 0);
                    }
                })));
            }
        }
    }
    cases
}

/// Each place free alone and with the last one, cleared or not, and all but the record.
fn free_places() -> Vec<Case> {
    let free = |places: &[usize], cleared: bool| {
        let mut tables = contents::with_free(places, &[]);
        tables.ike_mut()[PLACE].deleting = 0;
        if cleared {
            let empty = Tables::empty().ike.records[0];
            places.iter().for_each(|&place| tables.ike_mut()[place] = empty);
        }
        case_on(tables)
    };
    let all: Vec<usize> = (0..IKE_PLACES).filter(|&place| place != PLACE).collect();
    let mut cases = Vec::new();
    for &place in &all {
        for cleared in [false, true] {
            cases.extend([free(&[place], cleared), free(&[place, IKE_PLACES - 1], cleared)]);
        }
    }
    cases.extend([free(&all, false), free(&all, true), free(&[], false)]);
    cases.extend([Tables::empty(), contents::leftovers()].map(case_on));
    cases
}

/// SPIs that are alike in one half of their bits: of the record, of the one asked for and of the new one.
fn spis_alike() -> Vec<Case> {
    let mut cases = Vec::new();
    for there in spis::FEW_IKE {
        for asked in spis::FEW_IKE.into_iter().chain([0]) {
            for new_spi in spis::FEW_IKE.into_iter().chain([0]) {
                let tables = tables_with(|records| {
                    for (place, record) in records.iter_mut().enumerate() {
                        (record.spi, record.deleting) = (if place == 9 { there } else { 0 }, 0);
                    }
                });
                cases.push(Case {
                    tables,
                    request: CloneRequest { spi: asked, new_spi, ..cloning() },
                });
            }
        }
    }
    // Each record's own, as the new one.
    let of_place = |place| case(CloneRequest { new_spi: spis::ike(place), ..cloning() });
    cases.extend((0..=IKE_PLACES).map(of_place));
    cases
}

/// Two records of the SPI, of which the lower is meant: agreed or not, being deleted or not, of a peer that has 4
/// records or not.
fn twins() -> Vec<Case> {
    let mut cases = Vec::new();
    for twin in [0, 2, IKE_PLACES - 1] {
        for sort in 0..64_u32 {
            let has = |bit: u32| sort >> bit & 1 == 1;
            let mut tables = tables();
            let records = tables.ike_mut();
            records[twin].spi = spi();
            for (place, bit) in [(PLACE, 0), (twin, 3)] {
                records[place].agreed.cloning = u8::from(has(bit));
                records[place].deleting = u8::from(has(bit + 1));
                let others = 10 + bit as usize..10 + bit as usize + 3;
                let others = others.filter(|_| has(bit + 2));
                others.for_each(|other| has_peer_of(records, other, place));
            }
            cases.push(case_on(tables));
        }
    }
    cases
}

/// Done, and every refusal that leaves a response or doesn't, by the chain alone or by the new SPI.
fn each_outcome() -> Vec<CloneRequest> {
    vec![
        cloning(),
        request(&[asked()]),
        request(&[supported(), asked(), update(), cookie(8)]),
        request(&[supported(), unknown()]),
        request(&[]),
        request(&[asked(), update(), update()]),
        request(&[asked(), unknown_critical()]),
        CloneRequest { new_spi: spi(), ..cloning() },
        CloneRequest { spi: spis::ike(IKE_PLACES), ..cloning() },
    ]
}

fn each_outcome_on(tables: &[Tables]) -> Vec<Case> {
    let on = |tables: &Tables| {
        let tables = tables.clone();
        each_outcome().into_iter().map(move |request| Case { tables: tables.clone(), request })
    };
    tables.iter().flat_map(on).collect()
}

/// Of which each is done, has 40, has 41 of either sort or 42; with IPsec lists of each length, tallies about the
/// greatest, marks of any sort, and no pending check.
fn other_tables() -> Vec<Tables> {
    let mut all = vec![
        tables(),
        tables_with(|records| records[PLACE].agreed.cloning = 0),
        tables_with(|records| records[PLACE].deleting = 7),
        tables_with(|records| has_peer(records, &[3, 4, 6])),
        contents::full(),
        contents::leftovers(),
        Tables::empty(),
    ];
    all.extend(lengths::LISTED.map(|length| tables().with_ipsec_length(length)));
    for unknown in [0, 1, u32::MAX - 1, u32::MAX] {
        all.push(tables_with(|records| records[PLACE].unknown = unknown));
    }
    for mark in [0, 1, 1 << 32, u64::MAX] {
        all.push(tables_with(|records| records[PLACE].update_mark = mark));
        all.push(tables_with(|records| records[PLACE].list_mark = mark));
    }
    for length in [0, 7, 8, 64, 65, 255] {
        all.push(tables_with(|records| records[PLACE].check.length = length));
    }
    for family in [0, 4, 5, 255] {
        all.push(tables_with(|records| records[PLACE].pair.family = family));
    }
    for octet in YES {
        all.push(tables_with(|records| records[PLACE].agreed.cloning = octet));
    }
    all
}

/// Outputs of all lengths that matter, for every response and for none.
fn outputs() -> Vec<Case> {
    let deleted = tables_with(|records| records[PLACE].deleting = 1);
    let many = tables_with(|records| has_peer(records, &[3, 4, 6]));
    let mut cases = Vec::new();
    for length in [0, 1, 7, 8, 9, 126, 127, 128, 129, 255, 256, 300, 65_535, 65_536, 65_663, 70_000]
    {
        for tables in [tables(), deleted.clone(), many.clone()] {
            for request in each_outcome() {
                let request = CloneRequest { output: vec![0xa5; length], ..request };
                cases.push(Case { tables: tables.clone(), request });
            }
        }
    }
    cases
}

/// Octets that a call may give and that its record may have, some with every outcome.
fn octets() -> Vec<Case> {
    let mut cases = Vec::new();
    let mut add = |its: u8, operator: u8, requests: Vec<CloneRequest>| {
        let tables = tables_with(|records| records[PLACE].agreed.operator = its);
        let case = |request| {
            let request = CloneRequest { operator, ..request };
            Case { tables: tables.clone(), request }
        };
        cases.extend(requests.into_iter().map(case));
    };
    for octet in MORE_OCTETS {
        add(0, octet, vec![cloning()]);
        add(octet, octet, vec![cloning()]);
        add(octet, 0, vec![cloning()]);
    }
    for its in [0, 1, 2] {
        for operator in [0, 1, 2] {
            add(its, operator, each_outcome());
            let short = CloneRequest { output: vec![0xa5; 127], ..cloning() };
            add(its, operator, vec![CloneRequest { new_spi: 0, ..cloning() }, short]);
        }
    }
    cases
}

/// So many records of A and so many of B, also in free places and of neither, with the peer's limit reached or not and
/// the new SPI in use or not.
fn shares() -> Vec<Case> {
    let mut cases = Vec::new();
    for of_a in [1, 12, 19, 20, 21, 22, 32] {
        for free in
            [&[][..], &[0], &[31], &[19, 20], &[1, 2, 3, 4, 5, 6, 7, 8, 9, 10, 11], &[2, 30]]
        {
            let mut tables = contents::with_free(free, &[]);
            divide(tables.ike_mut(), of_a);
            tables.ike_mut().iter_mut().for_each(|record| record.deleting = 0);
            let mut of_neither = tables.clone();
            for (place, record) in of_neither.ike_mut().iter_mut().enumerate() {
                if place % 5 == 4 {
                    record.agreed.operator = 2 + place as u8;
                }
            }
            for (place, operator) in [(18, 0), (31, 1), (0, 0)] {
                for new_spi in [NEW_IKE, spis::ike(30)] {
                    for tables in [&tables, &of_neither] {
                        let request =
                            CloneRequest { spi: spis::ike(place), new_spi, operator, ..cloning() };
                        cases.push(Case { tables: tables.clone(), request });
                    }
                }
            }
            let many = {
                let mut tables = tables.clone();
                let peer = tables.ike.records[18].agreed.peer;
                tables.ike_mut()[12..18].iter_mut().for_each(|it| it.agreed.peer = peer);
                tables
            };
            let request = CloneRequest { spi: spis::ike(18), ..cloning() };
            for (operator, new_spi) in [(0, NEW_IKE), (1, NEW_IKE), (0, spis::ike(30))] {
                let request = CloneRequest { operator, new_spi, ..request.clone() };
                cases.push(Case { tables: many.clone(), request });
            }
        }
    }
    cases
}

/// Peers with records of both operators; new SPIs that the other operator has; and two records of the SPI, each of
/// either or of neither.
fn of_two_operators() -> Vec<Case> {
    let mut cases = Vec::new();
    for own in 0..=4 {
        for others in 0..=5 {
            let tables = tables_with(|records| {
                has_peer(records, &(8..8 + own).collect::<Vec<_>>());
                for place in 14..14 + others {
                    has_peer(records, &[place]);
                    records[place].agreed.operator = if place % 3 == 0 { 7 } else { 1 };
                }
            });
            cases.push(case_on(tables));
        }
    }
    for place in 0..IKE_PLACES {
        for operator in [0, 1, 9] {
            let tables = tables_with(|records| records[place].agreed.operator = operator);
            let request = CloneRequest { new_spi: spis::ike(place), ..cloning() };
            cases.push(Case { tables, request });
        }
    }
    for twin in [0, 2, IKE_PLACES - 1] {
        for own in [0, 1, 2] {
            for its in [0, 1, 2] {
                let tables = tables_with(|records| {
                    (records[twin].spi, records[twin].deleting) = (spi(), 0);
                    records[PLACE].agreed.operator = own;
                    records[twin].agreed.operator = its;
                });
                for operator in [0, 1, 2] {
                    let request = CloneRequest { operator, ..cloning() };
                    cases.push(Case { tables: tables.clone(), request });
                }
            }
        }
    }
    cases
}

/// IPsec records that name the new SPI, and those that name the original's, stay as they are.
fn orphans() -> Vec<Case> {
    let mut cases = Vec::new();
    for every in [1, 2, 3] {
        let mut tables = tables();
        for (place, record) in tables.ipsec_mut().iter_mut().enumerate() {
            record.owner = if place % every == 0 { NEW_IKE } else { spi() };
        }
        cases.push(case_on(tables));
    }
    cases
}

/// Each of the two with every SPI size, fitting and an octet short, and with data of every small size and of large
/// ones; alone, and behind one without a flaw.
fn sizes() -> Vec<Case> {
    let mut cases = Vec::new();
    let mut add = |flawed: Draft| {
        cases.push(case(request(&[flawed.clone()])));
        cases.push(case(request(&[asked(), flawed.clone(), unknown()])));
        cases.push(case(request(&[flawed, asked()])));
    };
    for notify_type in NotifyType::OF_CLONES {
        for size in (0..=20).chain([64, 127, 128, 254, 255]) {
            let spi = vec![1; usize::from(size)];
            add(Draft::notify_with_spi(notify_type, size, &spi));
            add(Draft::notify_with_spi(notify_type, size, &[&spi[..], &[2]].concat()));
            add(Draft::notify_with_spi(notify_type, size, &spi[..spi.len().saturating_sub(1)]));
        }
        for size in (0..=24).chain([36, 64, 255, 256, 1000, 4000]) {
            add(Draft::notify(notify_type, &vec![3; size]));
        }
        for bit in 0..8 {
            let mut flags = Draft::notify(notify_type, &[]);
            flags.flags = 1 << bit;
            add(flags);
            let mut protocol = Draft::notify(notify_type, &[]);
            protocol.content[0] = 1 << bit;
            add(protocol);
        }
    }
    for notify_type in (16_425..16_440).chain([0x3140, 0x3040, 49, 48]) {
        add(Draft::notify(NotifyType(notify_type), &[]));
    }
    cases
}

/// Every sequence of up to two of many payloads, sound or flawed, and of up to three of a few.
fn several() -> Vec<Case> {
    let notify =
        |notify_type, spi_size, rest: &[u8]| Draft::notify_with_spi(notify_type, spi_size, rest);
    let (clone, support) = (NotifyType::CLONE_IKE_SA, NotifyType::CLONE_IKE_SA_SUPPORTED);
    let few = [
        asked(),
        supported(),
        notify(clone, 0, &[1]),
        notify(clone, 4, &[1; 4]),
        notify(support, 4, &[1; 5]),
        update(),
        unknown_critical(),
        unknown(),
    ];
    let mut bad_length = Draft::payload(33, 0, vec![]);
    bad_length.told_length = Some(3);
    let more = [
        notify(support, 0, &[1]),
        notify(clone, 5, &[1; 4]),
        notify(NotifyType::UPDATE_SA_ADDRESSES, 1, &[1]),
        notify(NotifyType(16_403), 5, &[1; 9]),
        notify(NotifyType(16_403), 5, &[1; 4]),
        cookie(7),
        cookie(8),
        Draft::payload(NOTIFY, 0, vec![]),
        Draft::payload(33, 0x80, vec![1; 4]),
        bad_length,
        Draft::notify(NotifyType::NO_ADDITIONAL_ADDRESSES, &[]),
        Draft::notify(NotifyType::ADDITIONAL_IP4_ADDRESS, &[9; 4]),
        Draft::notify(NotifyType::NAT_DETECTION_DESTINATION_IP, &[9; 20]),
    ];
    let all = [&few[..], &more].concat();
    let chains = sequences(&all, 2).into_iter().chain(sequences(&few, 3));
    chains.map(|payloads| case(request(&payloads))).collect()
}

/// Bodies of 4,095 to 4,098 octets, with and without CLONE_IKE_SA, and many payloads.
fn body_lengths() -> Vec<Case> {
    let mut cases = Vec::new();
    for length in MAX_BODY - 1..=MAX_BODY + 2 {
        let filler = |rest: usize| Draft::payload(33, 0, vec![7; rest - 4]);
        cases.push(case(request(&[asked(), filler(length - 8)])));
        cases.push(case(request(&[filler(length - 8), asked()])));
        cases.push(case(request(&[filler(length)])));
    }
    for count in [254, 255, 256, 257, 1_020, 1_021, 1_022, 1_023, 1_024] {
        let many = vec![unknown(); count];
        cases.push(case(request(&[&many[..], &[asked()]].concat())));
        cases.push(case(request(&many)));
    }
    for count in [2, 3, 255, 256, 511, 512, 513] {
        cases.push(case(request(&vec![asked(); count])));
        cases.push(case(request(&[vec![asked(); count], vec![update(); 2]].concat())));
    }
    cases
}

/// The reader's listed chains with CLONE_IKE_SA before them, and some without.
fn listed_chains() -> Vec<Case> {
    let mut cases = Vec::new();
    for (number, reader::Case { first, body }) in chains::all().into_iter().enumerate() {
        let behind = [&[first, 0, 0, 8, 0, 0, 0x40, 0x31][..], &body].concat();
        cases.push(case(CloneRequest { first: NOTIFY, body: behind, ..cloning() }));
        if number % 8 == 0 {
            cases.push(case(CloneRequest { first, body, ..cloning() }));
        }
    }
    cases
}
