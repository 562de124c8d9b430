// Tables as they are lent to the library: each list is the middle of a longer one, the policies stand
// between rules, and what is around them must stay as it is.
use crate::address::AddressPair;
use crate::agreed::Agreed;
use crate::lent_rules::BetweenRules;
use crate::operator::OPERATORS;
use crate::pending::{PendingCheck, MOST_COOKIE};
use crate::policy::Policy;
use crate::rules::Plain;
use crate::tables::{find, IkeRecord, IkeTable, IpsecRecord, IpsecTable, Record, Tables};
use std::rc::Rc;

/// So many records stand on each side of a list.
const AROUND: usize = 2;

/// Stands in for an SPI that a call doesn't give.
pub const NO_SPI_GIVEN: u32 = 1;

/// What the records around have, so that any change shows.
const AGREED: Agreed = Agreed { mobike: 0xa5, cloning: 0x5a, operator: 0, peer: 0xa55a_5aa5 };
const DELETING: u8 = 0xa5;
const PAIR: AddressPair = AddressPair {
    family: 6,
    source: [0xa5; 16],
    destination: [0x5a; 16],
    source_port: 0xa55a,
    destination_port: 0x5aa5,
};

const CHECK: PendingCheck =
    PendingCheck { length: 0xa5, octets: [0x5a; MOST_COOKIE], id: 0xa55a_5aa5 };

/// A list between records that are known.
struct Lent<R> {
    all: Vec<R>,
    /// One that the call would mean, then one that it would take as free.
    around: [R; AROUND],
}

impl<R: Record + Copy + PartialEq> Lent<R> {
    /// The record that the call would mean stands next to the list, on each side.
    fn new(list: &[R], meant: R) -> Self {
        let around = [meant, R::FREE];
        let [next, far] = around;
        Lent { all: [&[far, next], list, &[next, far]].concat(), around }
    }

    fn list(&mut self) -> &mut [R] {
        let end = self.all.len() - AROUND;
        &mut self.all[AROUND..end]
    }

    fn is_kept_around(&self) -> bool {
        let [next, far] = self.around;
        self.all.starts_with(&[far, next]) && self.all.ends_with(&[next, far])
    }
}

/// Both tables and the policies, lent for one call.
pub struct LentTables {
    ike: Lent<IkeRecord>,
    ipsec: Lent<IpsecRecord>,
    policies: BetweenRules<[Policy; OPERATORS]>,
}

impl LentTables {
    /// The tables, for a call that gives these SPIs of an IKE and of an IPsec record and names this operator.
    pub fn new(tables: &Tables, (spi, ipsec_spi): (u64, u32), operator: u8) -> Self {
        // Of the peer that the record has and of the operator that is named, so that it would count for both.
        let meant = find(&tables.ike.records, spi, &Plain);
        let peer = meant.map_or(AGREED.peer, |place| tables.ike.records[place].agreed.peer);
        let agreed = Agreed { peer, operator, ..AGREED };
        let ike = IkeRecord { agreed, pair: PAIR, check: CHECK, ..IkeRecord::FREE };
        let ike = IkeRecord { spi, deleting: DELETING, ..ike };
        let ipsec = IpsecRecord { spi: ipsec_spi, owner: spi, pair: PAIR };
        LentTables {
            ike: Lent::new(&tables.ike.records, ike),
            ipsec: Lent::new(&tables.ipsec.records, ipsec),
            policies: BetweenRules::new(tables.policies),
        }
    }

    pub fn ike(&mut self) -> &mut [IkeRecord] {
        self.ike.list()
    }

    pub fn ipsec(&mut self) -> &mut [IpsecRecord] {
        self.ipsec.list()
    }

    /// Both, one behind the other.
    pub fn policies(&mut self) -> *mut [Policy; OPERATORS] {
        self.policies.start()
    }

    /// Puts all as it is now into the tables, what was lent for reading too, so that a change of it
    /// is compared; whether what is around is kept.
    pub fn give_back(mut self, tables: &mut Tables) -> bool {
        let records = self.ike().try_into().expect("the table has its places");
        tables.ike = Rc::new(IkeTable { records });
        tables.ipsec = Rc::new(IpsecTable { records: self.ipsec().to_vec() });
        tables.policies = self.policies.lent();
        let kept_records = self.ike.is_kept_around() && self.ipsec.is_kept_around();
        kept_records && self.policies.is_kept_around()
    }
}

#[cfg(test)]
mod tests {
    use super::*;

    fn lent() -> (Tables, LentTables) {
        let tables = Tables::empty();
        let lent = LentTables::new(&tables, (7, 9), 1);
        (tables, lent)
    }

    #[test]
    fn what_is_changed_in_the_lists_comes_back() {
        let (mut tables, mut lent) = lent();
        lent.ike()[31].spi = 1;
        lent.ipsec()[127].owner = 2;
        lent.policies = BetweenRules::new([Policy::EMPTY, Policy { count: 3, ..Policy::EMPTY }]);
        assert!(lent.give_back(&mut tables));
        assert_eq!((tables.ike.records[31].spi, tables.ipsec.records[127].owner), (1, 2));
        assert_eq!(tables.policies[1].count, 3);
    }

    #[test]
    fn a_change_around_the_lists_is_noticed() {
        for place in [0, 1, 34, 35] {
            let (mut tables, mut lent) = lent();
            lent.ike.all[place].unknown += 1;
            assert!(!lent.give_back(&mut tables));
        }
        for place in [0, 1, 130, 131] {
            let (mut tables, mut lent) = lent();
            lent.ipsec.all[place].pair.destination_port ^= 1;
            assert!(!lent.give_back(&mut tables));
        }
    }
}
