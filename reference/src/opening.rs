// Opening another IPsec record of an IKE record: the checks in their order, then the place that is taken.
use crate::calls::Refusal;
use crate::rules::TableRules;
use crate::tables::{free_place, Tables};

/// What the call is given.
#[derive(Debug, Clone, Copy, PartialEq, Eq)]
pub struct Adding {
    pub spi: u32,
    /// The SPI of the IKE record.
    pub owner: u64,
    pub operator: u8,
}

#[derive(Debug, Clone, Copy, PartialEq, Eq)]
pub enum Check {
    Spi0,
    Owner0,
    List,
    Operator,
    Owner,
    InUse,
    Share,
    Full,
}

pub fn open_ipsec(
    tables: &mut Tables,
    adding: &Adding,
    rules: &(impl TableRules + ?Sized),
) -> Result<(), Refusal> {
    let Adding { spi, owner, operator } = *adding;
    let mut order = rules.order_of_opening().iter();
    order.try_for_each(|&check| rules.check_opening(check, tables, adding))?;
    let named = rules.named(operator);
    let ike_place =
        rules.meant_of(&tables.ike.records, owner, named).ok_or(Refusal::NoSuchRecord)?;
    let place = free_place(&tables.ipsec.records, rules).ok_or(Refusal::AllInUse)?;
    tables.ipsec_mut()[place] = rules.new_ipsec(spi, owner, &tables.ike.records[ike_place]);
    Ok(())
}

#[cfg(test)]
mod tests {
    use super::*;
    use crate::address::AddressPair;
    use crate::agreed::Agreed;
    use crate::rules::Plain;
    use crate::tables::{IkeRecord, IpsecRecord, Record};

    const IPV4: AddressPair = AddressPair { family: 4, ..AddressPair::ZERO };
    const IPV6: AddressPair = AddressPair { family: 6, source: [9; 16], ..AddressPair::ZERO };

    /// IKE records with these SPIs, from the lowest place on, and no IPsec record.
    fn tables(spis: &[u64]) -> Tables {
        let mut tables = Tables::empty();
        for (place, &spi) in spis.iter().enumerate() {
            tables.ike_mut()[place] = IkeRecord { spi, pair: IPV4, ..IkeRecord::FREE };
        }
        tables
    }

    fn open(tables: &mut Tables, spi: u32, owner: u64) -> Result<(), Refusal> {
        open_ipsec(tables, &Adding { spi, owner, operator: 0 }, &Plain)
    }

    #[test]
    fn arguments_are_checked_first() {
        let mut tables = Tables::empty();
        assert_eq!(open(&mut tables, 0, 7), Err(Refusal::Argument));
        assert_eq!(open(&mut tables, 7, 0), Err(Refusal::Argument));
        assert_eq!(tables, Tables::empty());
    }

    #[test]
    fn the_owner_comes_before_the_spi_then_the_share_and_then_the_room() {
        let mut tables = tables(&[1, 2]);
        tables.ike_mut()[1].agreed.operator = 1;
        let open_for = |tables: &mut Tables, spi, owner, operator| {
            open_ipsec(tables, &Adding { spi, owner, operator }, &Plain)
        };
        for spi in 1..=80 {
            assert_eq!(open(&mut tables, spi, 1), Ok(()));
        }
        for (spi, owner, refusal) in [
            (5, 33, Refusal::NoSuchRecord),
            (5, 2, Refusal::NoSuchRecord),
            (5, 1, Refusal::SpiInUse),
            (129, 1, Refusal::OperatorAtShare),
        ] {
            assert_eq!(open(&mut tables, spi, owner), Err(refusal));
        }
        for spi in 81..=128 {
            assert_eq!(open_for(&mut tables, spi, 1, 1), Err(Refusal::NoSuchRecord));
            assert_eq!(open_for(&mut tables, spi, 2, 1), Ok(()));
        }
        assert_eq!(open_for(&mut tables, 129, 2, 1), Err(Refusal::AllInUse));
        assert_eq!(open_for(&mut tables, 129, 2, 2), Err(Refusal::Argument));
        assert_eq!(open(&mut tables, 129, 1), Err(Refusal::OperatorAtShare));
    }

    #[test]
    fn orphans_count_for_nobody_but_fill_places() {
        let mut tables = tables(&[1]);
        for (place, record) in tables.ipsec_mut().iter_mut().enumerate() {
            *record = IpsecRecord { spi: 1000 + place as u32, owner: 9, pair: IPV4 };
        }
        assert_eq!(open(&mut tables, 5, 1), Err(Refusal::AllInUse));
        tables.ipsec_mut()[7].spi = 0;
        assert_eq!(open(&mut tables, 1000, 1), Err(Refusal::SpiInUse));
        assert_eq!(open(&mut tables, 5, 1), Ok(()));
    }

    #[test]
    fn a_list_of_another_length_is_refused_before_the_owner_is_looked_for() {
        for length in [0, 1, 127, 129, 300] {
            let mut tables = tables(&[7]).with_ipsec_length(length);
            let before = tables.clone();
            assert_eq!(open(&mut tables, 9, 7), Err(Refusal::Argument));
            assert_eq!(open(&mut tables, 9, 8), Err(Refusal::Argument));
            assert_eq!(tables, before);
        }
    }

    #[test]
    fn an_ipsec_record_takes_the_pair_of_the_lowest_twin_whatever_it_is() {
        let mut tables = Tables::empty();
        let pair = AddressPair { family: 5, source_port: 1, ..IPV6 };
        tables.ike_mut()[3] = IkeRecord { spi: 7, pair, ..IkeRecord::FREE };
        let agreed = Agreed { mobike: 1, ..Agreed::NOTHING };
        tables.ike_mut()[4] = IkeRecord { spi: 7, agreed, pair: IPV4, ..IkeRecord::FREE };
        assert_eq!(open(&mut tables, 9, 7), Ok(()));
        assert_eq!(tables.ipsec.records[0], IpsecRecord { spi: 9, owner: 7, pair });
    }

    #[test]
    fn owners_have_64_bits() {
        let mut tables = tables(&[7]);
        assert_eq!(open(&mut tables, 9, (1 << 32) + 7), Err(Refusal::NoSuchRecord));
    }
}
