// What is agreed as each octet, with which peer, and the mark for being deleted: given to an opening, and in a record
// that calls find.
use super::super::peers;
use super::super::{spis, Case};
use super::contents::{self, ipv4_pair, open_both, NEW_IKE, NEW_IPSEC};
use crate::agreed::Agreed;
use crate::calls::Call;
use crate::opening::Adding;
use crate::opening_both::Opening;
use crate::operator::other;
use crate::tables::{IkeRecord, Tables, IKE_PLACES};

pub fn all() -> Vec<Case> {
    let of_octet = |octet: u8| {
        let peer = peers::FEW[usize::from(octet) % peers::FEW.len()];
        let with = |mobike, cloning| Agreed { mobike, cloning, operator: octet % 2, peer };
        let given = [with(octet, 1), with(1, octet), with(octet, 0), with(0, octet)].map(given);
        let found = [with(octet, 1), with(1, octet), with(octet, !octet)];
        given.into_iter().chain(found.map(|agreed| found_with(agreed, octet)))
    };
    (0..=255).flat_map(of_octet).chain(markings()).collect()
}

fn opening(agreed: Agreed) -> Call {
    let opening = Opening { spi: NEW_IKE, agreed, pair: ipv4_pair(), child: NEW_IPSEC };
    Call::OpenBoth(opening)
}

/// Opened, refused with another octet, closed, and opened with that one.
fn given(agreed: Agreed) -> Case {
    let tables = contents::with_free(&[3, 9], &[7, 40]);
    let Agreed { mobike, cloning, operator, peer } = agreed;
    let operator = other(operator);
    let other = opening(Agreed { mobike: !mobike, cloning: !cloning, operator, peer: !peer });
    let calls = vec![
        opening(agreed),
        Call::MarkDeletion { spi: NEW_IKE, operator },
        other.clone(),
        Call::CloseIke { spi: NEW_IKE, operator },
        other,
    ];
    Case { tables, calls }
}

/// Refused openings leave the record, another IPsec record is opened for it, and it closes.
fn found_with(agreed: Agreed, deleting: u8) -> Case {
    let mut tables = contents::with_free(&[3], &[7]);
    (tables.ike_mut()[9].agreed, tables.ike_mut()[9].deleting) = (agreed, deleting);
    let (spi, child) = (spis::ike(9), spis::ipsec(9));
    let calls = vec![
        open_both(spi, ipv4_pair(), NEW_IPSEC),
        open_both(NEW_IKE, ipv4_pair(), child),
        Call::OpenIpsec(Adding { spi: NEW_IPSEC - 1, owner: spi, operator: 0 }),
        opening(agreed),
        Call::CloseIpsec { spi: child, operator: 0 },
        Call::MarkDeletion { spi, operator: 0 },
        Call::CloseIke { spi, operator: 0 },
    ];
    Case { tables, calls }
}

/// Marks: each octet that may stand there, every place, twins, leftovers, SPIs that look alike, IPsec lists of other
/// lengths, and twice in a row.
fn markings() -> Vec<Case> {
    let mark = |spi| Call::MarkDeletion { spi, operator: 0 };
    let close = |spi| Call::CloseIke { spi, operator: 0 };
    let mut cases = Vec::new();
    for octet in 0..=255 {
        let mut tables = contents::full();
        tables.ike_mut()[9].deleting = octet;
        cases.push(Case { tables, calls: vec![mark(spis::ike(9)); 2] });
    }
    for place in 0..IKE_PLACES {
        let spi = spis::ike(place);
        let mut tables = contents::full();
        tables.ike_mut()[place].deleting = 0;
        let calls = vec![mark(spi), close(spi), mark(spi)];
        cases.push(Case { tables: tables.clone(), calls });
        tables.ike_mut()[IKE_PLACES - 1].spi = spi;
        cases.push(Case { tables, calls: vec![mark(spi), close(spi), mark(spi)] });
    }
    for there in spis::FEW_IKE {
        let mut tables = contents::leftovers();
        tables.ike_mut()[9] = IkeRecord { deleting: 0, ..contents::ike_record(9, there) };
        let calls = spis::FEW_IKE.into_iter().chain([0]).map(mark).collect();
        cases.push(Case { tables, calls });
    }
    for tables in [Tables::empty(), contents::leftovers(), contents::full()] {
        for length in [0, 127, 128, 129] {
            let tables = tables.with_ipsec_length(length);
            let calls = [spis::ike(3), 0, NEW_IKE, spis::ike(3)].map(mark).to_vec();
            cases.push(Case { tables, calls });
        }
    }
    cases
}
