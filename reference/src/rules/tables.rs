// The rules of the tables and of opening and closing: document 01, "Tables" and "The numbers given back", with
// requests E1, E8 and E9 of document 02.
use crate::address::AddressPair;
use crate::agreed::Agreed;
use crate::calls::{refuse_if, Refusal, User};
use crate::closing;
use crate::deleting;
use crate::opening::{self, Adding};
use crate::opening_both::{Check, Half, Opening};
use crate::operator::{Named, OPERATORS};
use crate::tables::{
    find, free_place, IkeRecord, IpsecRecord, Record, Tables, IKE_PLACES, IPSEC_PLACES,
};

pub trait TableRules {
    /// "Addresses travel as 16 octets each, .. IPv4 in the first four with zeros after"; 1 is "family not 4 or 6,
    /// IPv4 tail not zero".
    fn is_pair_sound(&self, pair: &AddressPair) -> bool {
        pair.is_sound()
    }

    /// "local SPI (64 bits, not 0)".
    fn same_spi(&self, one: u64, other: u64) -> bool {
        one == other
    }

    /// "the lowest place in use with the SPI is meant": of these places, by rising number.
    fn meant(&self, places: &mut dyn DoubleEndedIterator<Item = usize>) -> Option<usize> {
        places.next()
    }

    /// E9: "names operator A (0) or B (1), one bit". No paper decides what another octet is; 1 by decision, and it
    /// names neither.
    fn named(&self, operator: u8) -> Named {
        (usize::from(operator) < OPERATORS).then_some(operator)
    }

    /// E9: "Each IKE record .. names operator A (0) or B (1)". One with another octet is neither's, by decision.
    fn operator_of_ike(&self, record: &IkeRecord) -> u8 {
        record.agreed.operator
    }

    /// E9: "an IPsec record through its owner, if any", which is the lowest place in use with the SPI that it names;
    /// one without an owner is nobody's.
    fn operator_of_ipsec(&self, ike: &[IkeRecord; IKE_PLACES], record: &IpsecRecord) -> Option<u8> {
        find(ike, record.owner, self).map(|place| self.operator_of_ike(&ike[place]))
    }

    /// E9: "A call for one operator finds only its own records, else answer 4"; "the lowest place in use with the SPI
    /// is still the one meant, whichever operator it names".
    fn meant_of(
        &self,
        records: &[IkeRecord; IKE_PLACES],
        spi: u64,
        operator: Named,
    ) -> Option<usize> {
        let is_its = |&place: &usize| Some(self.operator_of_ike(&records[place])) == operator;
        find(records, spi, self).filter(is_its)
    }

    /// The same of an IPsec record that is to be closed.
    fn closable(&self, tables: &Tables, spi: u32, operator: Named) -> Option<usize> {
        let records = &tables.ipsec.records;
        let operator_of =
            |place: usize| self.operator_of_ipsec(&tables.ike.records, &records[place]);
        find(records, u64::from(spi), self)
            .filter(|&place| operator_of(place).is_some_and(|its| Some(its) == operator))
    }

    /// 11 is "opening, SPI in use in that table", whosever the record is: E9 says of one operator only what it finds.
    fn holds_ike(&self, tables: &Tables, spi: u64, _operator: Named) -> bool {
        find(&tables.ike.records, spi, self).is_some()
    }

    /// The same of the IPsec list; one that is nobody's holds its SPI too.
    fn holds_ipsec(&self, tables: &Tables, spi: u32, _operator: Named) -> bool {
        find(&tables.ipsec.records, u64::from(spi), self).is_some()
    }

    /// E9: "each operator has at most 20 of the 32".
    fn ike_share(&self) -> usize {
        20
    }

    /// E9: "and 80 of the 128 IPsec records".
    fn ipsec_share(&self) -> usize {
        80
    }

    /// E9: "counted from those in use": the IKE places that are this operator's, each of two that have one SPI.
    fn ikes(&self, records: &[IkeRecord; IKE_PLACES], operator: Named) -> usize {
        let is_its = |record: &&IkeRecord| Some(self.operator_of_ike(record)) == operator;
        records.iter().filter(|record| record.is_in_use()).filter(is_its).count()
    }

    /// The same of IPsec places, through their owners as they stand before the call, which is to open one that
    /// `_owner` owns.
    fn ipsecs(&self, tables: &Tables, operator: Named, _owner: u64) -> usize {
        let in_use = tables.ipsec.records.iter().filter(|record| record.is_in_use());
        let operators = in_use.map(|record| self.operator_of_ipsec(&tables.ike.records, record));
        operators.filter(|its| its.is_some_and(|its| Some(its) == operator)).count()
    }

    /// "Opening takes the lowest free place": of these places, by rising number.
    fn taken(&self, places: &mut dyn DoubleEndedIterator<Item = usize>) -> Option<usize> {
        places.next()
    }

    /// "128 IPsec records"; 1 is "an IPsec list not of 128 records".
    fn allows_list(&self, _user: User, length: usize) -> bool {
        length == IPSEC_PLACES
    }

    /// "MOBIKE agreed or not"; E8: "whether cloning is agreed". No paper decides which octets say yes; every one but 0
    /// by decision.
    fn is_yes(&self, octet: u8) -> bool {
        octet != 0
    }

    /// The same of a new record; yes is kept as 1 by decision.
    fn kept_yes(&self, octet: u8) -> u8 {
        u8::from(octet != 0)
    }

    /// E1: "Refusals: 1, 11 (IKE, then IPsec), 10 (IKE, then IPsec)."; E9: "43 operator at its share (IKE, then IPsec),
    /// after every 11 and before every 10".
    fn order_of_opening_both(&self) -> &'static [Check] {
        use Check::{
            ChildFull, ChildInUse, ChildShare, ChildSpi0, IkeFull, IkeInUse, IkeShare, IkeSpi0,
            List, Operator, Pair,
        };
        &[
            IkeSpi0, Pair, ChildSpi0, List, Operator, IkeInUse, ChildInUse, IkeShare, ChildShare,
            IkeFull, ChildFull,
        ]
    }

    /// 1 is "family not 4 or 6, IPv4 tail not zero, an SPI of 0, an IPsec list not of 128 records", 11 is "opening,
    /// SPI in use in that table", 10 is "opening, all places in use"; E9: 43 is "operator at its share".
    fn opening_both_fails(&self, check: Check, tables: &Tables, opening: &Opening) -> bool {
        let (ike, ipsec) = (&tables.ike.records, &tables.ipsec.records);
        let operator = self.named(opening.agreed.operator);
        match check {
            Check::IkeSpi0 => opening.spi == 0,
            Check::Pair => !self.is_pair_sound(&opening.pair),
            Check::ChildSpi0 => opening.child == 0,
            Check::List => !self.allows_list(User::OpeningBoth, ipsec.len()),
            Check::Operator => operator.is_none(),
            Check::IkeInUse => self.holds_ike(tables, opening.spi, operator),
            Check::ChildInUse => self.holds_ipsec(tables, opening.child, operator),
            Check::IkeShare => self.ikes(ike, operator) >= self.ike_share(),
            Check::ChildShare => self.ipsecs(tables, operator, opening.spi) >= self.ipsec_share(),
            Check::IkeFull => free_place(ike, self).is_none(),
            Check::ChildFull => free_place(ipsec, self).is_none(),
        }
    }

    /// E1: "one call opens both or neither": whether this record is opened where these checks fail.
    fn opens(&self, _half: Half, failing: &[Check]) -> bool {
        failing.is_empty()
    }

    /// "A new IKE record has no marks, an empty list, tally 0", whatever was left in its place; E8: it gains, "at
    /// opening, a 32-bit peer number and whether cloning is agreed", "and a mark for being deleted"; E9: it "names
    /// operator A (0) or B (1)".
    fn new_ike(&self, _left: &IkeRecord, opening: &Opening) -> IkeRecord {
        let Agreed { mobike, cloning, .. } = opening.agreed;
        let (mobike, cloning) = (self.kept_yes(mobike), self.kept_yes(cloning));
        let agreed = Agreed { mobike, cloning, ..opening.agreed };
        IkeRecord { spi: opening.spi, agreed, pair: opening.pair, ..IkeRecord::FREE }
    }

    /// E1: "an IKE record and its first IPsec record"; "A new one takes the pair of its IKE record".
    fn new_child(&self, _left: &IpsecRecord, opening: &Opening) -> IpsecRecord {
        IpsecRecord { spi: opening.child, owner: opening.spi, pair: opening.pair }
    }

    /// "Opening takes the lowest free place", this one; no other record of the list is named.
    fn put_child(&self, list: &mut [IpsecRecord], place: usize, opening: &Opening) {
        list[place] = self.new_child(&list[place], opening);
    }

    /// "Opening checks 1, 4 (the owner of an IPsec record), 11, 10."; E9: "43 .., after every 11 and before every 10".
    fn order_of_opening(&self) -> &'static [opening::Check] {
        use opening::Check::{Full, InUse, List, Operator, Owner, Owner0, Share, Spi0};
        &[Spi0, Owner0, List, Operator, Owner, InUse, Share, Full]
    }

    /// The same numbers as with both, and 4, "no such record".
    fn check_opening(
        &self,
        check: opening::Check,
        tables: &Tables,
        adding: &Adding,
    ) -> Result<(), Refusal> {
        let (ike, ipsec) = (&tables.ike.records, &tables.ipsec.records);
        let Adding { spi, owner, operator } = *adding;
        let operator = self.named(operator);
        let list_allowed = self.allows_list(User::OpeningIpsec, ipsec.len());
        match check {
            opening::Check::Spi0 => refuse_if(spi == 0, Refusal::Argument),
            opening::Check::Owner0 => refuse_if(owner == 0, Refusal::Argument),
            opening::Check::List => refuse_if(!list_allowed, Refusal::Argument),
            opening::Check::Operator => refuse_if(operator.is_none(), Refusal::Argument),
            opening::Check::Owner => {
                refuse_if(self.meant_of(ike, owner, operator).is_none(), Refusal::NoSuchRecord)
            }
            opening::Check::InUse => {
                refuse_if(self.holds_ipsec(tables, spi, operator), Refusal::SpiInUse)
            }
            opening::Check::Share => {
                let is_at_share = self.ipsecs(tables, operator, owner) >= self.ipsec_share();
                refuse_if(is_at_share, Refusal::OperatorAtShare)
            }
            opening::Check::Full => refuse_if(free_place(ipsec, self).is_none(), Refusal::AllInUse),
        }
    }

    /// "A new one takes the pair of its IKE record".
    fn new_ipsec(&self, spi: u32, owner: u64, ike: &IkeRecord) -> IpsecRecord {
        IpsecRecord { spi, owner, pair: ike.pair }
    }

    /// "Closing an IKE or IPsec record checks 1, 4."
    fn order_of_closing(&self) -> &'static [closing::Check] {
        use closing::Check::{List, Operator, Record, Spi0};
        &[Spi0, List, Operator, Record]
    }

    /// E8: "a mark for being deleted, set by a call (checks 1, 4)", whether or not it is set already.
    fn order_of_marking(&self) -> &'static [deleting::Check] {
        use deleting::Check::{Operator, Record, Spi0};
        &[Spi0, Operator, Record]
    }

    /// The same: the place that is meant, if the record may be marked.
    fn markable(
        &self,
        records: &[IkeRecord; IKE_PLACES],
        spi: u64,
        operator: Named,
    ) -> Option<usize> {
        self.meant_of(records, spi, operator)
    }

    /// The same, of the record that is meant and of nothing else in it. No paper decides what is kept for yes; 1 by
    /// decision.
    fn marked(&self, record: &IkeRecord) -> IkeRecord {
        IkeRecord { deleting: 1, ..*record }
    }

    /// "closing sets all its fields to 0 or none".
    fn freed(&self, _closed: &IkeRecord) -> IkeRecord {
        IkeRecord::FREE
    }

    /// "the lowest place in use with the SPI is meant": the IKE places that are closed with the one meant.
    fn closed(&self, _records: &[IkeRecord; IKE_PLACES], meant: usize) -> Vec<usize> {
        vec![meant]
    }

    /// "Closing an IKE record closes the IPsec records it owns"; E6: "accepted moves all its IPsec records".
    /// "A place is free when its SPI is 0", and then no record.
    fn owns(&self, ike: &IkeRecord, ipsec: &IpsecRecord) -> bool {
        ipsec.is_in_use() && self.same_spi(ipsec.owner, ike.spi)
    }
}
