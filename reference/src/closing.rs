// Closing records: a place is set free, and with an IKE record those of the IPsec records it owns.
use crate::calls::{refuse_if, Refusal, User};
use crate::rules::TableRules;
use crate::tables::{IpsecRecord, Record, Tables};

#[derive(Debug, Clone, Copy, PartialEq, Eq)]
pub enum Check {
    Spi0,
    List,
    Operator,
    Record,
}

pub fn close_ike(
    tables: &mut Tables,
    spi: u64,
    operator: u8,
    rules: &(impl TableRules + ?Sized),
) -> Result<(), Refusal> {
    let place = rules.meant_of(&tables.ike.records, spi, rules.named(operator));
    let place = checked(place, spi, operator, tables, rules)?;
    close_place(tables, place, |owned| owned, rules);
    Ok(())
}

/// Closes the IKE record at this place, and of the IPsec records those of which `closes` says so, by whether it owns
/// them.
pub fn close_place(
    tables: &mut Tables,
    place: usize,
    closes: impl Fn(bool) -> bool,
    rules: &(impl TableRules + ?Sized),
) {
    let meant = tables.ike.records[place];
    for place in rules.closed(&tables.ike.records, place) {
        tables.ike_mut()[place] = rules.freed(&tables.ike.records[place]);
    }
    let closed = |record: &&mut IpsecRecord| closes(rules.owns(&meant, record));
    tables.ipsec_mut().iter_mut().filter(closed).for_each(|record| *record = IpsecRecord::FREE);
}

pub fn close_ipsec(
    tables: &mut Tables,
    spi: u32,
    operator: u8,
    rules: &(impl TableRules + ?Sized),
) -> Result<(), Refusal> {
    let place = rules.closable(tables, spi, rules.named(operator));
    let place = checked(place, u64::from(spi), operator, tables, rules)?;
    tables.ipsec_mut()[place] = IpsecRecord::FREE;
    Ok(())
}

/// The place that is meant, unless a check fails.
fn checked(
    place: Option<usize>,
    spi: u64,
    operator: u8,
    tables: &Tables,
    rules: &(impl TableRules + ?Sized),
) -> Result<usize, Refusal> {
    for check in rules.order_of_closing() {
        match check {
            Check::Spi0 => refuse_if(spi == 0, Refusal::Argument)?,
            Check::List => {
                let allowed = rules.allows_list(User::Closing, tables.ipsec.records.len());
                refuse_if(!allowed, Refusal::Argument)?;
            }
            Check::Operator => refuse_if(rules.named(operator).is_none(), Refusal::Argument)?,
            Check::Record => refuse_if(place.is_none(), Refusal::NoSuchRecord)?,
        }
    }
    place.ok_or(Refusal::NoSuchRecord)
}

#[cfg(test)]
mod tests {
    use super::*;
    use crate::address::AddressPair;
    use crate::agreed::Agreed;
    use crate::rules::Plain;
    use crate::tables::IkeRecord;

    fn tables(ike_spis: &[u64], ipsec: &[(u32, u64)]) -> Tables {
        let mut tables = Tables::empty();
        for (place, &spi) in ike_spis.iter().enumerate() {
            let agreed = Agreed { mobike: 255, ..Agreed::NOTHING };
            tables.ike_mut()[place] = IkeRecord { spi, agreed, unknown: 5, ..IkeRecord::FREE };
        }
        for (place, &(spi, owner)) in ipsec.iter().enumerate() {
            let pair = AddressPair { family: 4, ..AddressPair::ZERO };
            tables.ipsec_mut()[place] = IpsecRecord { spi, owner, pair };
        }
        tables
    }

    /// The SPIs and owners in the first places.
    fn ipsec(tables: &Tables, places: usize) -> Vec<(u32, u64)> {
        tables.ipsec.records[..places].iter().map(|record| (record.spi, record.owner)).collect()
    }

    #[test]
    fn an_ike_record_closes_with_those_it_owns_and_no_others() {
        let mut tables = tables(&[6, 7], &[(1, 7), (2, 6), (0, 7), (1, 7), (3, (1 << 32) + 7)]);
        assert_eq!(close_ike(&mut tables, 7, 0, &Plain), Ok(()));
        assert_eq!(tables.ike.records[1], IkeRecord::FREE);
        assert_eq!(tables.ike.records[0].spi, 6);
        let left = [(0, 0), (2, 6), (0, 7), (0, 0), (3, (1 << 32) + 7)];
        assert_eq!(ipsec(&tables, 5), left);
        assert_eq!(tables.ipsec.records[2].pair.family, 4);
    }

    #[test]
    fn a_twin_stays_but_not_the_ipsec_records() {
        let mut tables = tables(&[0, 7, 7], &[(1, 7)]);
        assert_eq!(close_ike(&mut tables, 7, 0, &Plain), Ok(()));
        assert_eq!(tables.ike.records.map(|record| record.spi)[..3], [0, 0, 7]);
        assert_eq!(tables.ike.records[0].unknown, 5);
        assert_eq!(ipsec(&tables, 1), [(0, 0)]);
        assert_eq!(close_ike(&mut tables, 7, 0, &Plain), Ok(()));
        assert_eq!(close_ike(&mut tables, 7, 0, &Plain), Err(Refusal::NoSuchRecord));
    }

    #[test]
    fn the_lowest_ipsec_twin_closes_and_orphans_do_not() {
        let mut tables = tables(&[7], &[(0, 7), (1, 7), (1, 8)]);
        assert_eq!(close_ipsec(&mut tables, 1, 0, &Plain), Ok(()));
        assert_eq!(ipsec(&tables, 3), [(0, 7), (0, 0), (1, 8)]);
        for operator in [0, 1] {
            let refused = Err(Refusal::NoSuchRecord);
            assert_eq!(close_ipsec(&mut tables, 1, operator, &Plain), refused);
        }
    }

    #[test]
    fn the_lowest_place_is_meant_whosever_it_is() {
        for [low, high] in [[0, 1], [1, 0], [0, 2], [2, 0], [2, 3]] {
            let mut tables = tables(&[6, 7, 7], &[(1, 7)]);
            tables.ike_mut()[1].agreed.operator = low;
            tables.ike_mut()[2].agreed.operator = high;
            let before = tables.clone();
            for operator in [0, 1] {
                let refused = Err(Refusal::NoSuchRecord);
                if operator != low {
                    assert_eq!(close_ike(&mut tables, 7, operator, &Plain), refused);
                    assert_eq!(close_ipsec(&mut tables, 1, operator, &Plain), refused);
                }
            }
            for operator in [2, 3, 255] {
                let refused = Err(Refusal::Argument);
                assert_eq!(close_ike(&mut tables, 7, operator, &Plain), refused);
                assert_eq!(close_ipsec(&mut tables, 1, operator, &Plain), refused);
            }
            assert_eq!(tables, before);
            if low < 2 {
                assert_eq!(close_ipsec(&mut tables, 1, low, &Plain), Ok(()));
                assert_eq!(close_ike(&mut tables, 7, low, &Plain), Ok(()));
                assert_eq!(tables.ike.records[2].spi, 7);
            }
        }
    }

    #[test]
    fn a_list_of_another_length_is_refused_before_the_record_is_looked_for() {
        for length in [0, 1, 127, 129, 300] {
            let mut tables = tables(&[7], &[(1, 7)]).with_ipsec_length(length);
            let before = tables.clone();
            for spi in [0, 1, 7] {
                let refused = Err(Refusal::Argument);
                assert_eq!(close_ike(&mut tables, u64::from(spi), 0, &Plain), refused);
                assert_eq!(close_ipsec(&mut tables, spi, 0, &Plain), refused);
            }
            assert_eq!(tables, before);
        }
    }

    #[test]
    fn an_spi_of_0_is_refused_though_places_are_free() {
        let mut tables = tables(&[0], &[(0, 7)]);
        let before = tables.clone();
        assert_eq!(close_ike(&mut tables, 0, 0, &Plain), Err(Refusal::Argument));
        assert_eq!(close_ipsec(&mut tables, 0, 0, &Plain), Err(Refusal::Argument));
        assert_eq!(close_ike(&mut tables, 7, 0, &Plain), Err(Refusal::NoSuchRecord));
        assert_eq!(tables, before);
    }
}
