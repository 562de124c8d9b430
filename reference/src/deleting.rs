// Marking an IKE record as being deleted: the checks in their order, then the mark in its place.
use crate::calls::{refuse_if, Refusal};
use crate::rules::TableRules;
use crate::tables::Tables;

#[derive(Debug, Clone, Copy, PartialEq, Eq)]
pub enum Check {
    Spi0,
    Operator,
    Record,
}

pub fn mark_deletion(
    tables: &mut Tables,
    spi: u64,
    operator: u8,
    rules: &(impl TableRules + ?Sized),
) -> Result<(), Refusal> {
    let named = rules.named(operator);
    let place = rules.markable(&tables.ike.records, spi, named);
    for check in rules.order_of_marking() {
        match check {
            Check::Spi0 => refuse_if(spi == 0, Refusal::Argument)?,
            Check::Operator => refuse_if(named.is_none(), Refusal::Argument)?,
            Check::Record => refuse_if(place.is_none(), Refusal::NoSuchRecord)?,
        }
    }
    let place = place.ok_or(Refusal::NoSuchRecord)?;
    tables.ike_mut()[place] = rules.marked(&tables.ike.records[place]);
    Ok(())
}

#[cfg(test)]
mod tests {
    use super::*;
    use crate::rules::Plain;
    use crate::tables::{IkeRecord, Record};

    /// A leftover of the SPI's record, and two records of it.
    fn tables(deleting: u8) -> Tables {
        let mut tables = Tables::empty();
        let record = IkeRecord { spi: 7, unknown: 5, update_mark: 2, deleting, ..IkeRecord::FREE };
        tables.ike_mut()[0] = IkeRecord { spi: 0, ..record };
        (tables.ike_mut()[1], tables.ike_mut()[2]) = (record, record);
        tables
    }

    #[test]
    fn the_lowest_record_of_the_spi_is_marked_and_nothing_else() {
        for deleting in [0, 1, 2, 255] {
            let (mut marked, mut expected) = (tables(deleting), tables(deleting));
            for _ in 0..2 {
                assert_eq!(mark_deletion(&mut marked, 7, 0, &Plain), Ok(()));
                expected.ike_mut()[1].deleting = 1;
                assert_eq!(marked, expected);
            }
        }
    }

    #[test]
    fn refusals_change_nothing() {
        let mut marked = tables(0);
        assert_eq!(mark_deletion(&mut marked, 0, 0, &Plain), Err(Refusal::Argument));
        assert_eq!(mark_deletion(&mut marked, 8, 0, &Plain), Err(Refusal::NoSuchRecord));
        let other = mark_deletion(&mut marked, (1 << 32) + 7, 0, &Plain);
        assert_eq!(other, Err(Refusal::NoSuchRecord));
        assert_eq!(marked, tables(0));
    }

    #[test]
    fn the_ipsec_list_is_not_looked_at() {
        for length in [0, 127, 129] {
            let mut marked = tables(0).with_ipsec_length(length);
            assert_eq!(mark_deletion(&mut marked, 7, 0, &Plain), Ok(()));
        }
    }
}
