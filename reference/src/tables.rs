// The tables: IKE records and IPsec records in their places, and which place an SPI means.
use crate::address::{Address, AddressPair};
use crate::agreed::Agreed;
use crate::operator::OPERATORS;
use crate::pending::PendingCheck;
use crate::policy::Policy;
use crate::rules::TableRules;
use crate::summary::MAX_KEPT;
use std::rc::Rc;

pub const IKE_PLACES: usize = 32;
pub const IPSEC_PLACES: usize = 128;

/// A record of either table, in its place.
pub trait Record {
    /// What a free place holds once it was closed.
    const FREE: Self;

    fn spi(&self) -> u64;

    fn is_in_use(&self) -> bool {
        self.spi() != 0
    }
}

#[repr(C)]
#[derive(Debug, Clone, Copy, PartialEq, Eq)]
pub struct IkeRecord {
    pub spi: u64,
    pub agreed: Agreed,
    pub pair: AddressPair,
    /// 0 for none; a message ID is kept as the number after it.
    pub update_mark: u64,
    pub list_mark: u64,
    pub count: u16,
    pub addresses: [Address; MAX_KEPT],
    /// The unknown tally.
    pub unknown: u32,
    pub check: PendingCheck,
    /// The mark for being deleted; 0 is none.
    pub deleting: u8,
}

#[repr(C)]
#[derive(Debug, Clone, Copy, PartialEq, Eq)]
pub struct IpsecRecord {
    pub spi: u32,
    pub owner: u64,
    pub pair: AddressPair,
}

#[derive(Debug, Clone, PartialEq, Eq)]
pub struct IkeTable {
    pub records: [IkeRecord; IKE_PLACES],
}

#[derive(Debug, Clone, PartialEq, Eq)]
pub struct IpsecTable {
    /// As many as are lent; the calls refuse another number than 128.
    pub records: Vec<IpsecRecord>,
}

/// All that the calls change; a table is copied only where it is changed.
#[derive(Debug, Clone, PartialEq, Eq)]
pub struct Tables {
    pub ike: Rc<IkeTable>,
    pub ipsec: Rc<IpsecTable>,
    /// One for each operator.
    pub policies: [Policy; OPERATORS],
}

impl Record for IkeRecord {
    const FREE: Self = IkeRecord {
        spi: 0,
        agreed: Agreed::NOTHING,
        pair: AddressPair::ZERO,
        update_mark: 0,
        list_mark: 0,
        count: 0,
        addresses: [Address::ZERO; MAX_KEPT],
        unknown: 0,
        check: PendingCheck::NONE,
        deleting: 0,
    };

    fn spi(&self) -> u64 {
        self.spi
    }
}

impl Record for IpsecRecord {
    const FREE: Self = IpsecRecord { spi: 0, owner: 0, pair: AddressPair::ZERO };

    fn spi(&self) -> u64 {
        u64::from(self.spi)
    }
}

impl Tables {
    pub fn empty() -> Self {
        Tables {
            ike: Rc::new(IkeTable { records: [IkeRecord::FREE; IKE_PLACES] }),
            ipsec: Rc::new(IpsecTable { records: vec![IpsecRecord::FREE; IPSEC_PLACES] }),
            policies: [Policy::EMPTY; OPERATORS],
        }
    }

    /// The same but for the length of the IPsec list: its records, over and over.
    pub fn with_ipsec_length(&self, length: usize) -> Self {
        let records = self.ipsec.records.iter().copied().cycle().take(length).collect();
        Tables { ipsec: Rc::new(IpsecTable { records }), ..self.clone() }
    }

    pub fn ike_mut(&mut self) -> &mut [IkeRecord; IKE_PLACES] {
        &mut Rc::make_mut(&mut self.ike).records
    }

    pub fn ipsec_mut(&mut self) -> &mut [IpsecRecord] {
        &mut Rc::make_mut(&mut self.ipsec).records
    }
}

/// The place that the SPI means, whosever it is.
pub fn find<R: Record>(
    records: &[R],
    spi: u64,
    rules: &(impl TableRules + ?Sized),
) -> Option<usize> {
    let meant = |record: &R| record.is_in_use() && rules.same_spi(record.spi(), spi);
    rules.meant(&mut (0..records.len()).filter(|&place| meant(&records[place])))
}

/// The place that a new record takes.
pub fn free_place<R: Record>(records: &[R], rules: &(impl TableRules + ?Sized)) -> Option<usize> {
    rules.taken(&mut (0..records.len()).filter(|&place| !records[place].is_in_use()))
}
