// Opening an IKE record and its first IPsec record in one call: the checks of both come before either
// is put into its place, so that there is never one without the other.
use crate::address::AddressPair;
use crate::agreed::Agreed;
use crate::calls::Refusal;
use crate::rules::TableRules;
use crate::tables::{free_place, Tables};

/// What the call is given.
#[repr(C)]
#[derive(Debug, Clone, Copy, PartialEq, Eq)]
pub struct Opening {
    pub spi: u64,
    pub agreed: Agreed,
    /// Of both records.
    pub pair: AddressPair,
    /// The SPI of the IPsec record.
    pub child: u32,
}

#[derive(Debug, Clone, Copy, PartialEq, Eq)]
pub enum Check {
    IkeSpi0,
    Pair,
    ChildSpi0,
    List,
    Operator,
    IkeInUse,
    ChildInUse,
    IkeShare,
    ChildShare,
    IkeFull,
    ChildFull,
}

/// One of the two records.
#[derive(Debug, Clone, Copy, PartialEq, Eq)]
pub enum Half {
    Ike,
    Child,
}

/// Opens both records, or neither; of several failing checks the first is told.
pub fn open_both(
    tables: &mut Tables,
    opening: &Opening,
    rules: &(impl TableRules + ?Sized),
) -> Result<(), Refusal> {
    let failing = failing(tables, opening, rules);
    let ike = free_place(&tables.ike.records, rules);
    if let Some(place) = ike.filter(|_| rules.opens(Half::Ike, &failing)) {
        tables.ike_mut()[place] = rules.new_ike(&tables.ike.records[place], opening);
    }
    let child = free_place(&tables.ipsec.records, rules);
    if let Some(place) = child.filter(|_| rules.opens(Half::Child, &failing)) {
        rules.put_child(tables.ipsec_mut(), place, opening);
    }
    failing.first().map_or(Ok(()), |failed| Err(failed.refusal()))
}

/// The checks that fail, in their order.
pub fn failing(
    tables: &Tables,
    opening: &Opening,
    rules: &(impl TableRules + ?Sized),
) -> Vec<Check> {
    let order = rules.order_of_opening_both().iter().copied();
    order.filter(|&check| rules.opening_both_fails(check, tables, opening)).collect()
}

impl Check {
    fn refusal(self) -> Refusal {
        match self {
            Check::IkeSpi0 | Check::Pair | Check::ChildSpi0 | Check::List | Check::Operator => {
                Refusal::Argument
            }
            Check::IkeInUse | Check::ChildInUse => Refusal::SpiInUse,
            Check::IkeShare | Check::ChildShare => Refusal::OperatorAtShare,
            Check::IkeFull | Check::ChildFull => Refusal::AllInUse,
        }
    }
}

#[cfg(test)]
mod tests {
    use super::*;
    use crate::rules::Plain;
    use crate::tables::{IkeRecord, IpsecRecord, Record, IKE_PLACES, IPSEC_PLACES};

    const IPV4: AddressPair = AddressPair { family: 4, ..AddressPair::ZERO };
    const IPV6: AddressPair = AddressPair { family: 6, source: [9; 16], ..AddressPair::ZERO };

    fn open(tables: &mut Tables, spi: u64, pair: AddressPair, child: u32) -> Result<(), Refusal> {
        let agreed = Agreed { mobike: 2, ..Agreed::NOTHING };
        open_both(tables, &Opening { spi, agreed, pair, child }, &Plain)
    }

    /// Asserts that the call is refused so and changes nothing.
    fn assert_refused(tables: &Tables, opening: (u64, AddressPair, u32), refusal: Refusal) {
        let mut after = tables.clone();
        let (spi, pair, child) = opening;
        assert_eq!(open(&mut after, spi, pair, child), Err(refusal));
        assert_eq!(after, *tables);
    }

    /// Records with these SPIs, from the lowest places on, the IKE records of either operator in turn.
    fn with_spis(
        ike: impl IntoIterator<Item = u64>,
        ipsec: impl IntoIterator<Item = u32>,
    ) -> Tables {
        let mut tables = Tables::empty();
        for (place, (record, spi)) in tables.ike_mut().iter_mut().zip(ike).enumerate() {
            (record.spi, record.agreed.operator) = (spi, (place % 2) as u8);
        }
        tables.ipsec_mut().iter_mut().zip(ipsec).for_each(|(record, spi)| record.spi = spi);
        tables
    }

    #[test]
    fn both_records_are_new_whatever_was_left_in_their_places() {
        let mut tables = with_spis([3], [5, 6]);
        let left = &mut tables.ike_mut()[1];
        (left.update_mark, left.list_mark, left.count, left.unknown) = (1, 2, 3, 4);
        (left.agreed.mobike, left.addresses[15].family) = (5, 6);
        tables.ipsec_mut()[2] = IpsecRecord { spi: 0, owner: 8, pair: IPV4 };
        let mut expected = tables.clone();
        assert_eq!(open(&mut tables, 7, IPV6, 9), Ok(()));
        let agreed = Agreed { mobike: 1, ..Agreed::NOTHING };
        expected.ike_mut()[1] = IkeRecord { spi: 7, agreed, pair: IPV6, ..IkeRecord::FREE };
        expected.ipsec_mut()[2] = IpsecRecord { spi: 9, owner: 7, pair: IPV6 };
        assert_eq!(tables, expected);
    }

    #[test]
    fn any_bad_argument_of_either_record_comes_before_the_tables() {
        let full = with_spis(1..=IKE_PLACES as u64, 1..=IPSEC_PLACES as u32);
        for tables in [Tables::empty(), full] {
            let tail = AddressPair { family: 4, ..IPV6 };
            for opening in [(0, IPV4, 7), (7, AddressPair::ZERO, 7), (7, tail, 7), (7, IPV4, 0)] {
                assert_refused(&tables, opening, Refusal::Argument);
            }
            for length in [0, 1, 127, 129, 300] {
                let tables = tables.with_ipsec_length(length);
                assert_refused(&tables, (7, IPV4, 7), Refusal::Argument);
                assert_refused(&tables, (70, IPV4, 700), Refusal::Argument);
            }
        }
    }

    #[test]
    fn an_spi_in_use_in_either_table_comes_before_a_full_one() {
        for (ike_count, ipsec_count) in [(2, 2), (32, 2), (2, 128), (32, 128)] {
            let mut tables = with_spis(1..=ike_count, 1..=ipsec_count);
            for opening in [(2, IPV4, 2), (2, IPV4, 200), (200, IPV4, 2)] {
                assert_refused(&tables, opening, Refusal::SpiInUse);
            }
            if (ike_count, ipsec_count) == (2, 2) {
                assert_eq!(open(&mut tables, 200, IPV4, 200), Ok(()));
            } else {
                assert_refused(&tables, (200, IPV4, 200), Refusal::AllInUse);
            }
        }
    }

    #[test]
    fn a_share_comes_behind_every_spi_in_use_and_before_every_full_table() {
        let open_for = |tables: &Tables, spi, child, operator| {
            let agreed = Agreed { operator, ..Agreed::NOTHING };
            let opening = Opening { spi, agreed, pair: IPV4, child };
            open_both(&mut tables.clone(), &opening, &Plain)
        };
        for (of_a, of_b, number) in
            [(19, 12, 0), (20, 11, 43), (20, 12, 43), (21, 0, 43), (19, 13, 10)]
        {
            let mut tables = with_spis(1..=of_a + of_b, [5]);
            for (place, record) in tables.ike_mut().iter_mut().enumerate() {
                record.agreed.operator = u8::from(place as u64 >= of_a);
            }
            let number_of = |result: Result<(), Refusal>| result.map_or_else(|it| it as u8, |()| 0);
            assert_eq!(number_of(open_for(&tables, 200, 200, 0)), number);
            assert_eq!(number_of(open_for(&tables, 1, 200, 0)), 11);
            assert_eq!(number_of(open_for(&tables, of_a + of_b, 200, 0)), 11);
            assert_eq!(number_of(open_for(&tables, 200, 5, 0)), 11);
            assert_eq!(number_of(open_for(&tables, 1, 5, 2)), 1);
        }
        let mut tables = with_spis([1, 2], 1..=128);
        tables.ipsec_mut().iter_mut().for_each(|record| record.owner = 1);
        assert_eq!(open_for(&tables, 200, 200, 0), Err(Refusal::OperatorAtShare));
        assert_eq!(open_for(&tables, 200, 200, 1), Err(Refusal::AllInUse));
        assert_eq!(open_for(&tables, 200, 7, 0), Err(Refusal::SpiInUse));
        // Those that name the new SPI are not yet the operator's.
        tables.ipsec_mut().iter_mut().for_each(|record| record.owner = 200);
        tables.ipsec_mut()[9].spi = 0;
        assert_eq!(open_for(&tables, 200, 200, 0), Ok(()));
    }

    #[test]
    fn a_number_in_use_in_the_other_table_only_is_free() {
        let mut tables = with_spis([7], [9]);
        assert_eq!(open(&mut tables, 9, IPV4, 7), Ok(()));
        assert_eq!(open(&mut tables, 8, IPV4, 8), Ok(()));
    }

    #[test]
    fn spis_have_64_bits_and_the_owner_keeps_them() {
        let mut tables = Tables::empty();
        assert_eq!(open(&mut tables, 7, IPV4, 1), Ok(()));
        assert_eq!(open(&mut tables, (1 << 32) + 7, IPV4, 2), Ok(()));
        assert_eq!(open(&mut tables, 1 << 32, IPV4, 3), Ok(()));
        let owners: Vec<u64> = tables.ipsec.records[..3].iter().map(|it| it.owner).collect();
        assert_eq!(owners, [7, (1 << 32) + 7, 1 << 32]);
    }

    #[test]
    fn what_names_the_spi_already_stays_as_it_is() {
        let mut tables = Tables::empty();
        let orphan = IpsecRecord { spi: 5, owner: 7, pair: IPV4 };
        let left = IpsecRecord { spi: 0, owner: 7, pair: IPV4 };
        (tables.ipsec_mut()[0], tables.ipsec_mut()[2]) = (orphan, left);
        assert_eq!(open(&mut tables, 7, IPV6, 9), Ok(()));
        let new = IpsecRecord { spi: 9, owner: 7, pair: IPV6 };
        assert_eq!(tables.ipsec.records[..3], [orphan, new, left]);
    }
}
