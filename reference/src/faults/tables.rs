// Faults of the rules of the tables, of opening and of closing.
use super::Row;
use crate::address::AddressPair;
use crate::calls::{Refusal, User};
use crate::closing;
use crate::deleting;
use crate::kind::Kind;
use crate::opening::{Adding, Check as Of};
use crate::opening_both::Check::{
    self, ChildFull, ChildInUse, ChildShare, ChildSpi0, IkeFull, IkeInUse, IkeShare, IkeSpi0, List,
    Operator, Pair,
};
use crate::opening_both::{Half, Opening};
use crate::operator::Named;
use crate::rules::{Plain, PolicyRules, TableRules};
use crate::tables::{find, IkeRecord, IpsecRecord, Record, Tables, IKE_PLACES};
use std::collections::BTreeSet;

pub const FAULTS: &[Row<dyn TableRules>] = &[
    (
        Kind::Tables,
        "source-tail-only",
        "A destination may have octets past those of IPv4.",
        &SourceTailOnly,
    ),
    (Kind::Tables, "spi-32-bits", "IKE SPIs are compared by their low 32 bits.", &Spi32Bits),
    (Kind::Tables, "highest-twin", "Of places with the same SPI the highest is meant.", &HighestTwin),
    (Kind::Tables, "highest-free-place", "Opening takes the highest free place.", &HighestFreePlace),
    (
        Kind::Clones,
        "clone-highest-free-place",
        "A clone takes the highest free place.",
        &HighestFreePlace,
    ),
    (
        Kind::Clones,
        "clone-highest-twin",
        "Of places with the original's SPI the highest is cloned.",
        &HighestTwin,
    ),
    (
        Kind::Tables,
        "above-1-is-b",
        "An operator above 1 is taken as 1.",
        &CallNames(|operator| Some(operator.min(1))),
    ),
    (
        Kind::Tables,
        "lowest-bit-named",
        "Of the operator that a call gives the lowest bit is taken.",
        &CallNames(|operator| Some(operator % 2)),
    ),
    (
        Kind::Tables,
        "any-octet-named",
        "An operator above 1 has records of its own.",
        &CallNames(Some),
    ),
    (
        Kind::Requests,
        "request-above-1-is-b",
        "A request that gives an operator above 1 is made for B.",
        &CallNames(|operator| Some(operator.min(1))),
    ),
    (
        Kind::Requests,
        "request-any-octet",
        "A request that gives an operator above 1 finds the records with that octet.",
        &CallNames(Some),
    ),
    (
        Kind::Checks,
        "response-above-1-is-b",
        "A check response that gives an operator above 1 is made for B.",
        &CallNames(|operator| Some(operator.min(1))),
    ),
    (
        Kind::Clones,
        "clone-above-1-is-b",
        "A clone that gives an operator above 1 is made for B.",
        &CallNames(|operator| Some(operator.min(1))),
    ),
    (
        Kind::Tables,
        "record-above-1-is-b",
        "A record with an operator above 1 is B's.",
        &RecordNames(|operator| operator.min(1)),
    ),
    (
        Kind::Tables,
        "record-lowest-bit",
        "Of a record's operator the lowest bit counts.",
        &RecordNames(|operator| operator % 2),
    ),
    (
        Kind::Requests,
        "served-record-above-1",
        "B's requests find records with an operator above 1.",
        &RecordNames(|operator| operator.min(1)),
    ),
    (
        Kind::Clones,
        "cloned-record-above-1",
        "B clones records with an operator above 1.",
        &RecordNames(|operator| operator.min(1)),
    ),
    (
        Kind::Tables,
        "orphans-are-a-s",
        "An IPsec record without an owner is A's.",
        &IpsecOperator(|rules, ike, record| {
            rules.operator_of_ipsec(ike, record).or(Some(0))
        }),
    ),
    (
        Kind::Tables,
        "ipsec-of-highest-twin",
        "An IPsec record is the operator's that has the highest place with its owner's SPI.",
        &IpsecOperator(|_, ike, record| {
            let mut places = ike.iter().filter(|it| it.is_in_use() && it.spi == record.owner);
            places.next_back().map(|it| it.agreed.operator)
        }),
    ),
    (
        Kind::Tables,
        "found-by-spi-and-operator",
        "The lowest place with the SPI and the operator is meant.",
        &Meant(by_spi_and_operator),
    ),
    (
        Kind::Requests,
        "served-by-spi-and-operator",
        "A request means the lowest place with its SPI and its operator.",
        &Meant(by_spi_and_operator),
    ),
    (
        Kind::Checks,
        "decided-by-spi-and-operator",
        "A check response means the lowest place with its SPI and its operator.",
        &Meant(by_spi_and_operator),
    ),
    (
        Kind::Clones,
        "cloned-by-spi-and-operator",
        "A clone's original is the lowest place with its SPI and its operator.",
        &Meant(by_spi_and_operator),
    ),
    (
        Kind::Tables,
        "found-whosever",
        "The other operator's IKE records are found too.",
        &Meant(|records, spi, _| find(records, spi, &Plain)),
    ),
    (
        Kind::Requests,
        "served-whosever",
        "A request finds the other operator's record.",
        &Meant(|records, spi, _| find(records, spi, &Plain)),
    ),
    (
        Kind::Checks,
        "decided-whosever",
        "A check response finds the other operator's record.",
        &Meant(|records, spi, _| find(records, spi, &Plain)),
    ),
    (
        Kind::Clones,
        "cloned-whosever",
        "The other operator's record is cloned.",
        &Meant(|records, spi, _| find(records, spi, &Plain)),
    ),
    (
        Kind::Tables,
        "orphan-closed",
        "An IPsec record without an owner is closed by either operator.",
        &Closable(|tables, place, operator| {
            let record = &tables.ipsec.records[place];
            operator.is_some() && find(&tables.ike.records, record.owner, &Plain).is_none()
        }),
    ),
    (
        Kind::Tables,
        "closed-whosever",
        "The other operator's IPsec record is closed.",
        &Closable(|tables, place, operator| {
            let record = &tables.ipsec.records[place];
            operator.is_some() && Plain.operator_of_ipsec(&tables.ike.records, record).is_some()
        }),
    ),
    (
        Kind::Tables,
        "closed-by-spi-and-operator",
        "The lowest IPsec place with the SPI and the operator is closed.",
        &ClosedBySpiAndOperator,
    ),
    (
        Kind::Tables,
        "ike-in-use-own-only",
        "11 of an IKE SPI looks at the operator's own records only.",
        &HoldsIke,
    ),
    (
        Kind::Tables,
        "ipsec-in-use-own-only",
        "11 of an IPsec SPI looks at the operator's own records only.",
        &HoldsIpsec(|its, operator| its.is_some() && its == operator),
    ),
    (
        Kind::Tables,
        "orphans-hold-nothing",
        "The SPI of an IPsec record without an owner isn't in use.",
        &HoldsIpsec(|its, _| its.is_some()),
    ),
    (Kind::Tables, "ike-share-21", "An operator may have 21 IKE records.", &IkeShareOf(21)),
    (Kind::Tables, "ike-share-19", "An operator may have 19 IKE records, and no more.", &IkeShareOf(19)),
    (Kind::Clones, "clone-share-21", "Clones go up to 21 records.", &IkeShareOf(21)),
    (Kind::Clones, "clone-share-19", "Clones go up to 19 records.", &IkeShareOf(19)),
    (Kind::Tables, "ipsec-share-81", "An operator may have 81 IPsec records.", &IpsecShareOf(81)),
    (
        Kind::Tables,
        "ipsec-share-79",
        "An operator may have 79 IPsec records, and no more.",
        &IpsecShareOf(79),
    ),
    (
        Kind::Tables,
        "ike-share-of-both",
        "The IKE records of both operators count to a share.",
        &Ikes(|record, _| record.is_in_use()),
    ),
    (
        Kind::Tables,
        "ike-share-free-counted",
        "Free IKE places that still name the operator count to its share.",
        &Ikes(|record, operator| Some(record.agreed.operator) == operator),
    ),
    (
        Kind::Tables,
        "ike-share-twins-once",
        "IKE records with one SPI count once to a share.",
        &IkeTwinsOnce,
    ),
    (
        Kind::Clones,
        "clone-share-of-both",
        "With clones the IKE records of both operators count to a share.",
        &Ikes(|record, _| record.is_in_use()),
    ),
    (
        Kind::Clones,
        "clone-share-free-counted",
        "With clones free IKE places that still name the operator count to its share.",
        &Ikes(|record, operator| Some(record.agreed.operator) == operator),
    ),
    (
        Kind::Tables,
        "ipsec-share-of-both",
        "The IPsec records of both operators count to a share.",
        &Ipsecs(|tables, record, _, _| {
            record.is_in_use() && Plain.operator_of_ipsec(&tables.ike.records, record).is_some()
        }),
    ),
    (
        Kind::Tables,
        "ipsec-share-orphans-counted",
        "IPsec records without an owner count to everyone's share.",
        &Ipsecs(|tables, record, operator, _| {
            let its = Plain.operator_of_ipsec(&tables.ike.records, record);
            record.is_in_use() && its.is_none_or(|its| Some(its) == operator)
        }),
    ),
    (
        Kind::Tables,
        "ipsec-share-free-counted",
        "Free IPsec places that still name an owner count to its share.",
        &Ipsecs(|tables, record, operator, _| {
            let its = Plain.operator_of_ipsec(&tables.ike.records, record);
            its.is_some() && its == operator
        }),
    ),
    (
        Kind::Tables,
        "ipsec-share-of-owner",
        "The share of IPsec records is counted of the owner's alone.",
        &Ipsecs(|_, record, _, owner| record.is_in_use() && record.owner == owner),
    ),
    (
        Kind::Tables,
        "ipsec-share-of-any-twin",
        "An IPsec record counts to the share of everyone who has a record with its owner's SPI.",
        &Ipsecs(|tables, record, operator, _| {
            let owners = tables.ike.records.iter();
            let mut owners = owners.filter(|it| it.is_in_use() && it.spi == record.owner);
            record.is_in_use() && owners.any(|it| Some(it.agreed.operator) == operator)
        }),
    ),
    (
        Kind::Tables,
        "ipsec-share-after-ike",
        "Opening both counts IPsec records as if the new IKE record stood, so that its orphans count.",
        &Ipsecs(|tables, record, operator, owner| {
            let its = Plain.operator_of_ipsec(&tables.ike.records, record);
            let is_new = its.is_none() && record.owner == owner && operator.is_some();
            record.is_in_use() && (is_new || (its.is_some() && its == operator))
        }),
    ),
    (
        Kind::Tables,
        "list-of-127",
        "Opening and closing take an IPsec list of 127 records.",
        &AllowsList(|user, length| is_table_call(user) && length == 127),
    ),
    (
        Kind::Tables,
        "list-length-16-bits",
        "Opening and closing look at the low 16 bits of the list's length.",
        &AllowsList(|user, length| is_table_call(user) && length % 65536 == 128),
    ),
    (
        Kind::Tables,
        "both-any-list",
        "Opening both takes an IPsec list of any length.",
        &AllowsList(|user, _| user == User::OpeningBoth),
    ),
    (
        Kind::Requests,
        "served-list-of-127",
        "A request takes an IPsec list of 127 records.",
        &AllowsList(|user, length| user == User::Handler && length == 127),
    ),
    (
        Kind::Requests,
        "served-any-list",
        "A request takes an IPsec list of any length.",
        &AllowsList(|user, _| user == User::Handler),
    ),
    (
        Kind::Checks,
        "response-list-of-127",
        "A check response takes an IPsec list of 127 records.",
        &AllowsList(|user, length| user == User::CheckResponse && length == 127),
    ),
    (Kind::Requests, "served-only-1", "In check 5 only an octet of 1 is yes.", &ServedOnly1),
    (
        Kind::Tables,
        "agreed-as-given",
        "A new IKE record keeps the octet of what is agreed as it was given.",
        &KeptYes(|octet| octet),
    ),
    (
        Kind::Tables,
        "agreed-only-1",
        "At opening both only an octet of 1 is yes.",
        &KeptYes(|octet| (octet == 1) as u8),
    ),
    (
        Kind::Tables,
        "both-full-first",
        "Opening both checks 10 of both tables before 11.",
        &BothOrder(&[
            IkeSpi0, Pair, ChildSpi0, List, Operator, IkeFull, ChildFull, IkeInUse, ChildInUse,
            IkeShare, ChildShare,
        ]),
    ),
    (
        Kind::Tables,
        "both-as-two-calls",
        "All checks of the IKE record come before all of the IPsec record, as with two calls.",
        &BothOrder(&[
            IkeSpi0, Pair, Operator, IkeInUse, IkeShare, IkeFull, ChildSpi0, List, ChildInUse,
            ChildShare, ChildFull,
        ]),
    ),
    (
        Kind::Tables,
        "both-list-last",
        "Opening both checks the IPsec list's length after 11 and 10.",
        &BothOrder(&[
            IkeSpi0, Pair, ChildSpi0, Operator, IkeInUse, ChildInUse, IkeShare, ChildShare, IkeFull,
            ChildFull, List,
        ]),
    ),
    (
        Kind::Tables,
        "child-in-use-passes",
        "Opening both takes an IPsec SPI that is in use.",
        &BothOrder(&[
            IkeSpi0, Pair, ChildSpi0, List, Operator, IkeInUse, IkeShare, ChildShare, IkeFull,
            ChildFull,
        ]),
    ),
    (
        Kind::Tables,
        "ike-full-passes",
        "With no free IKE place the IPsec record is opened alone, with 0.",
        &BothOrder(&[
            IkeSpi0, Pair, ChildSpi0, List, Operator, IkeInUse, ChildInUse, IkeShare, ChildShare,
            ChildFull,
        ]),
    ),
    (
        Kind::Tables,
        "both-full-before-share",
        "Opening both checks 43 after 10.",
        &BothOrder(&[
            IkeSpi0, Pair, ChildSpi0, List, Operator, IkeInUse, ChildInUse, IkeFull, ChildFull,
            IkeShare, ChildShare,
        ]),
    ),
    (
        Kind::Tables,
        "both-share-first",
        "Opening both checks 43 before 11.",
        &BothOrder(&[
            IkeSpi0, Pair, ChildSpi0, List, Operator, IkeShare, ChildShare, IkeInUse, ChildInUse,
            IkeFull, ChildFull,
        ]),
    ),
    (
        Kind::Tables,
        "both-ike-share-before-child",
        "Opening both checks 43 of the IKE record before 11 of the IPsec record.",
        &BothOrder(&[
            IkeSpi0, Pair, ChildSpi0, List, Operator, IkeInUse, IkeShare, ChildInUse, ChildShare,
            IkeFull, ChildFull,
        ]),
    ),
    (
        Kind::Tables,
        "both-ike-full-before-child-share",
        "Opening both checks 10 of the IKE record before 43 of the IPsec record.",
        &BothOrder(&[
            IkeSpi0, Pair, ChildSpi0, List, Operator, IkeInUse, ChildInUse, IkeShare, IkeFull,
            ChildShare, ChildFull,
        ]),
    ),
    (
        Kind::Tables,
        "both-without-ipsec-share",
        "Opening both doesn't ask for the share of IPsec records.",
        &BothOrder(&[
            IkeSpi0, Pair, ChildSpi0, List, Operator, IkeInUse, ChildInUse, IkeShare, IkeFull,
            ChildFull,
        ]),
    ),
    (
        Kind::Tables,
        "both-without-ike-share",
        "Opening both doesn't ask for the share of IKE records.",
        &BothOrder(&[
            IkeSpi0, Pair, ChildSpi0, List, Operator, IkeInUse, ChildInUse, ChildShare, IkeFull,
            ChildFull,
        ]),
    ),
    (
        Kind::Tables,
        "both-operator-last",
        "Opening both checks the operator after 11 and 10.",
        &BothOrder(&[
            IkeSpi0, Pair, ChildSpi0, List, IkeInUse, ChildInUse, IkeShare, ChildShare, IkeFull,
            ChildFull, Operator,
        ]),
    ),
    (
        Kind::Tables,
        "open-asks-policy",
        "Opening both gives 1 for a pair that is not acceptable.",
        &OpenAsksPolicy,
    ),
    (
        Kind::Tables,
        "child-across-tables",
        "Opening both refuses an IPsec SPI that is the number of an IKE SPI in use, or of the one given.",
        &ChildAcrossTables,
    ),
    (
        Kind::Tables,
        "ike-stays-child-full",
        "With no free IPsec place opening both gives 10, but the IKE record stays.",
        &Stays(Half::Ike, ChildFull),
    ),
    (
        Kind::Tables,
        "child-stays-ike-in-use",
        "With an IKE SPI in use opening both gives 11, but the IPsec record stays.",
        &Stays(Half::Child, IkeInUse),
    ),
    (
        Kind::Tables,
        "open-leaves-list",
        "A new IKE record keeps the addresses that were left in its place.",
        &NewIke(|new, left, _| new.addresses = left.addresses),
    ),
    (
        Kind::Tables,
        "open-leaves-marks",
        "A new IKE record keeps the marks that were left in its place.",
        &NewIke(|new, left, _| {
            (new.update_mark, new.list_mark) = (left.update_mark, left.list_mark);
        }),
    ),
    (
        Kind::Tables,
        "open-leaves-check",
        "A new IKE record keeps the pending check that was left in its place.",
        &NewIke(|new, left, _| new.check = left.check),
    ),
    (
        Kind::Tables,
        "open-leaves-deletion",
        "A new IKE record keeps the mark for being deleted that was left in its place.",
        &NewIke(|new, left, _| new.deleting = left.deleting),
    ),
    (
        Kind::Tables,
        "open-cloning-as-given",
        "A new IKE record keeps the octet of cloning as it was given.",
        &NewIke(|new, _, opening| new.agreed.cloning = opening.agreed.cloning),
    ),
    (
        Kind::Tables,
        "open-for-a",
        "A new IKE record is A's, whoever opens it.",
        &NewIke(|new, _, _| new.agreed.operator = 0),
    ),
    (
        Kind::Tables,
        "open-leaves-operator",
        "A new IKE record is the operator's that was left in its place.",
        &NewIke(|new, left, _| new.agreed.operator = left.agreed.operator),
    ),
    (
        Kind::Tables,
        "child-owner-32-bits",
        "The first IPsec record has the low 32 bits of its owner's SPI.",
        &NewChild(|new, _| new.owner %= 1 << 32),
    ),
    (
        Kind::Tables,
        "child-pair-left",
        "The first IPsec record keeps the pair that was left in its place.",
        &NewChild(|new, left| new.pair = left.pair),
    ),
    (
        Kind::Tables,
        "child-pair-turned",
        "The first IPsec record has source and destination the other way round.",
        &NewChild(|new, _| new.pair = new.pair.swapped()),
    ),
    (
        Kind::Tables,
        "orphans-moved",
        "IPsec records that name the SPI before it is opened take the pair.",
        &Orphans(|orphan, pair| orphan.pair = pair),
    ),
    (
        Kind::Tables,
        "full-first",
        "Opening another IPsec record checks 10 before 11.",
        &Order(&[
            Of::Spi0,
            Of::Owner0,
            Of::List,
            Of::Operator,
            Of::Owner,
            Of::Full,
            Of::InUse,
            Of::Share,
        ]),
    ),
    (
        Kind::Tables,
        "owner-last",
        "Opening another IPsec record checks 4 after 11 and 10.",
        &Order(&[
            Of::Spi0,
            Of::Owner0,
            Of::List,
            Of::Operator,
            Of::InUse,
            Of::Share,
            Of::Full,
            Of::Owner,
        ]),
    ),
    (
        Kind::Tables,
        "owner-0-unknown",
        "An owner of 0 gives 4.",
        &Order(&[
            Of::Spi0,
            Of::List,
            Of::Operator,
            Of::Owner,
            Of::InUse,
            Of::Share,
            Of::Full,
        ]),
    ),
    (
        Kind::Tables,
        "list-after-owner",
        "Opening another IPsec record checks the list's length after 4.",
        &Order(&[
            Of::Spi0,
            Of::Owner0,
            Of::Operator,
            Of::Owner,
            Of::List,
            Of::InUse,
            Of::Share,
            Of::Full,
        ]),
    ),
    (
        Kind::Tables,
        "add-full-before-share",
        "Opening another IPsec record checks 43 after 10.",
        &Order(&[
            Of::Spi0,
            Of::Owner0,
            Of::List,
            Of::Operator,
            Of::Owner,
            Of::InUse,
            Of::Full,
            Of::Share,
        ]),
    ),
    (
        Kind::Tables,
        "add-share-before-in-use",
        "Opening another IPsec record checks 43 before 11.",
        &Order(&[
            Of::Spi0,
            Of::Owner0,
            Of::List,
            Of::Operator,
            Of::Owner,
            Of::Share,
            Of::InUse,
            Of::Full,
        ]),
    ),
    (
        Kind::Tables,
        "add-share-before-owner",
        "Opening another IPsec record checks 43 before 4.",
        &Order(&[
            Of::Spi0,
            Of::Owner0,
            Of::List,
            Of::Operator,
            Of::Share,
            Of::Owner,
            Of::InUse,
            Of::Full,
        ]),
    ),
    (
        Kind::Tables,
        "add-without-share",
        "Opening another IPsec record doesn't ask for the share.",
        &Order(&[
            Of::Spi0,
            Of::Owner0,
            Of::List,
            Of::Operator,
            Of::Owner,
            Of::InUse,
            Of::Full,
        ]),
    ),
    (
        Kind::Tables,
        "add-operator-after-owner",
        "Opening another IPsec record gives 4 for an operator that there isn't.",
        &Order(&[
            Of::Spi0,
            Of::Owner0,
            Of::List,
            Of::Owner,
            Of::Operator,
            Of::InUse,
            Of::Share,
            Of::Full,
        ]),
    ),
    (
        Kind::Tables,
        "spi-across-tables",
        "Another IPsec record isn't opened with the number of an IKE SPI.",
        &SpiAcrossTables,
    ),
    (
        Kind::Tables,
        "ipsec-pair-zero",
        "Another IPsec record has no pair when it is opened.",
        &IpsecPairZero,
    ),
    (
        Kind::Tables,
        "list-after-record",
        "Closing checks the list's length after 4.",
        &ListAfterRecord,
    ),
    (
        Kind::Tables,
        "close-leaves-list",
        "Closing leaves the addresses of the list.",
        &Freed(|freed, closed| freed.addresses = closed.addresses),
    ),
    (
        Kind::Tables,
        "close-leaves-check",
        "Closing leaves the cookie of a pending check, without its length.",
        &Freed(|freed, closed| freed.check.octets = closed.check.octets),
    ),
    (
        Kind::Tables,
        "close-leaves-peer",
        "Closing leaves the peer's number.",
        &Freed(|freed, closed| freed.agreed.peer = closed.agreed.peer),
    ),
    (
        Kind::Tables,
        "close-leaves-operator",
        "Closing leaves the operator.",
        &Freed(|freed, closed| freed.agreed.operator = closed.agreed.operator),
    ),
    (
        Kind::Tables,
        "close-leaves-deletion",
        "Closing leaves the mark for being deleted.",
        &Freed(|freed, closed| freed.deleting = closed.deleting),
    ),
    (Kind::Tables, "mark-spi-0-unknown", "Marking SPI 0 gives 4.", &MarkSpi0Unknown),
    (
        Kind::Tables,
        "mark-once",
        "Marking a record that is being deleted gives 4.",
        &Markable(|record| record.deleting == 0),
    ),
    (
        Kind::Tables,
        "mark-not-set",
        "The mark for being deleted isn't set.",
        &Marked(|marked, record| marked.deleting = record.deleting),
    ),
    (
        Kind::Tables,
        "mark-kept",
        "A mark that is set already keeps its octet.",
        &Marked(|marked, record| marked.deleting = record.deleting.max(1)),
    ),
    (
        Kind::Tables,
        "twins-closed",
        "Closing an IKE record closes all places with its SPI.",
        &TwinsClosed,
    ),
    (
        Kind::Tables,
        "free-owner-wiped",
        "Closing an IKE record clears free IPsec places that name it.",
        &FreeOwned,
    ),
    (
        Kind::Checks,
        "free-owned-moved",
        "Free IPsec places that name the owner take the pair, or are cleared.",
        &FreeOwned,
    ),
    (
        Kind::Tables,
        "close-by-pair",
        "Closing an IKE record also closes IPsec records with its pair.",
        &AlsoByPair,
    ),
    (
        Kind::Checks,
        "moved-by-pair",
        "The IPsec records that have the IKE record's pair move or are closed.",
        &ByPair,
    ),
    (
        Kind::Checks,
        "others-moved",
        "IPsec records of every SPI move, or are closed.",
        &AnyOwner,
    ),
];

/// Whether the list is lent for opening or closing.
fn is_table_call(user: User) -> bool {
    !matches!(user, User::Handler | User::CheckResponse)
}

struct SourceTailOnly;
impl TableRules for SourceTailOnly {
    fn is_pair_sound(&self, pair: &AddressPair) -> bool {
        AddressPair { destination: pair.source, ..*pair }.is_sound()
    }
}

struct Spi32Bits;
impl TableRules for Spi32Bits {
    fn same_spi(&self, one: u64, other: u64) -> bool {
        one as u32 == other as u32
    }
}

struct HighestTwin;
impl TableRules for HighestTwin {
    fn meant(&self, places: &mut dyn DoubleEndedIterator<Item = usize>) -> Option<usize> {
        places.next_back()
    }
}

struct CallNames(fn(u8) -> Named);
impl TableRules for CallNames {
    fn named(&self, operator: u8) -> Named {
        self.0(operator)
    }
}

struct RecordNames(fn(u8) -> u8);
impl TableRules for RecordNames {
    fn operator_of_ike(&self, record: &IkeRecord) -> u8 {
        self.0(record.agreed.operator)
    }
}

struct IpsecOperator(fn(&Plain, &[IkeRecord; IKE_PLACES], &IpsecRecord) -> Option<u8>);
impl TableRules for IpsecOperator {
    fn operator_of_ipsec(&self, ike: &[IkeRecord; IKE_PLACES], record: &IpsecRecord) -> Option<u8> {
        self.0(&Plain, ike, record)
    }
}

struct Meant(fn(&[IkeRecord; IKE_PLACES], u64, Named) -> Option<usize>);
impl TableRules for Meant {
    fn meant_of(
        &self,
        records: &[IkeRecord; IKE_PLACES],
        spi: u64,
        operator: Named,
    ) -> Option<usize> {
        self.0(records, spi, operator)
    }
}

/// The lowest place with both at once.
fn by_spi_and_operator(
    records: &[IkeRecord; IKE_PLACES],
    spi: u64,
    operator: Named,
) -> Option<usize> {
    let is_its = |it: &IkeRecord| it.spi == spi && Some(it.agreed.operator) == operator;
    records.iter().position(|it| it.is_in_use() && is_its(it))
}

/// Also where this is so of the place that is meant.
struct Closable(fn(&Tables, usize, Named) -> bool);
impl TableRules for Closable {
    fn closable(&self, tables: &Tables, spi: u32, operator: Named) -> Option<usize> {
        let meant = find(&tables.ipsec.records, u64::from(spi), &Plain);
        let also = meant.filter(|&place| self.0(tables, place, operator));
        also.or_else(|| Plain.closable(tables, spi, operator))
    }
}

struct ClosedBySpiAndOperator;
impl TableRules for ClosedBySpiAndOperator {
    fn closable(&self, tables: &Tables, spi: u32, operator: Named) -> Option<usize> {
        tables.ipsec.records.iter().position(|it| {
            let its = Plain.operator_of_ipsec(&tables.ike.records, it);
            it.is_in_use() && it.spi == spi && its.is_some() && its == operator
        })
    }
}

struct HoldsIke;
impl TableRules for HoldsIke {
    fn holds_ike(&self, tables: &Tables, spi: u64, operator: Named) -> bool {
        by_spi_and_operator(&tables.ike.records, spi, operator).is_some()
    }
}

/// Whether a record holds its SPI is told by whose it is.
struct HoldsIpsec(fn(Option<u8>, Named) -> bool);
impl TableRules for HoldsIpsec {
    fn holds_ipsec(&self, tables: &Tables, spi: u32, operator: Named) -> bool {
        tables.ipsec.records.iter().any(|it| {
            let its = Plain.operator_of_ipsec(&tables.ike.records, it);
            it.is_in_use() && it.spi == spi && self.0(its, operator)
        })
    }
}

struct IkeShareOf(usize);
impl TableRules for IkeShareOf {
    fn ike_share(&self) -> usize {
        self.0
    }
}

struct IpsecShareOf(usize);
impl TableRules for IpsecShareOf {
    fn ipsec_share(&self) -> usize {
        self.0
    }
}

struct Ikes(fn(&IkeRecord, Named) -> bool);
impl TableRules for Ikes {
    fn ikes(&self, records: &[IkeRecord; IKE_PLACES], operator: Named) -> usize {
        records.iter().filter(|record| self.0(record, operator)).count()
    }
}

struct IkeTwinsOnce;
impl TableRules for IkeTwinsOnce {
    fn ikes(&self, records: &[IkeRecord; IKE_PLACES], operator: Named) -> usize {
        let own = records.iter().filter(|it| Some(it.agreed.operator) == operator);
        own.filter(|it| it.is_in_use()).map(|it| it.spi).collect::<BTreeSet<u64>>().len()
    }
}

/// By the record, the operator that is named, and the owner of the one that is to be opened.
struct Ipsecs(fn(&Tables, &IpsecRecord, Named, u64) -> bool);
impl TableRules for Ipsecs {
    fn ipsecs(&self, tables: &Tables, operator: Named, owner: u64) -> usize {
        let counted = |it: &&IpsecRecord| self.0(tables, it, operator, owner);
        tables.ipsec.records.iter().filter(counted).count()
    }
}

struct HighestFreePlace;
impl TableRules for HighestFreePlace {
    fn taken(&self, places: &mut dyn DoubleEndedIterator<Item = usize>) -> Option<usize> {
        places.next_back()
    }
}

/// Takes a list of some other lengths too.
struct AllowsList(fn(User, usize) -> bool);
impl TableRules for AllowsList {
    fn allows_list(&self, user: User, length: usize) -> bool {
        self.0(user, length) || Plain.allows_list(user, length)
    }
}

struct ServedOnly1;
impl TableRules for ServedOnly1 {
    fn is_yes(&self, octet: u8) -> bool {
        octet == 1
    }
}

struct KeptYes(fn(u8) -> u8);
impl TableRules for KeptYes {
    fn kept_yes(&self, octet: u8) -> u8 {
        self.0(octet)
    }
}

/// Checks in another order, or not all of them; a record that then has no place isn't opened.
struct BothOrder(&'static [Check]);
impl TableRules for BothOrder {
    fn order_of_opening_both(&self) -> &'static [Check] {
        self.0
    }
}

struct OpenAsksPolicy;
impl TableRules for OpenAsksPolicy {
    fn opening_both_fails(&self, check: Check, tables: &Tables, opening: &Opening) -> bool {
        let refused = check == Pair && !Plain.accepts(&tables.policies[0], &opening.pair);
        refused || Plain.opening_both_fails(check, tables, opening)
    }
}

struct ChildAcrossTables;
impl TableRules for ChildAcrossTables {
    fn opening_both_fails(&self, check: Check, tables: &Tables, opening: &Opening) -> bool {
        let child = u64::from(opening.child);
        let elsewhere = child == opening.spi || find(&tables.ike.records, child, &Plain).is_some();
        (check == ChildInUse && elsewhere) || Plain.opening_both_fails(check, tables, opening)
    }
}

/// Whether an IPsec record names the SPI before it is opened.
fn is_orphan(record: &IpsecRecord, opening: &Opening) -> bool {
    record.is_in_use() && record.owner == opening.spi
}

/// Of an opening that is refused for this check alone, the record stays.
struct Stays(Half, Check);
impl TableRules for Stays {
    fn opens(&self, half: Half, failing: &[Check]) -> bool {
        (half == self.0 && failing == [self.1]) || Plain.opens(half, failing)
    }
}

struct NewIke(fn(&mut IkeRecord, &IkeRecord, &Opening));
impl TableRules for NewIke {
    fn new_ike(&self, left: &IkeRecord, opening: &Opening) -> IkeRecord {
        let mut new = Plain.new_ike(left, opening);
        self.0(&mut new, left, opening);
        new
    }
}

struct NewChild(fn(&mut IpsecRecord, &IpsecRecord));
impl TableRules for NewChild {
    fn new_child(&self, left: &IpsecRecord, opening: &Opening) -> IpsecRecord {
        let mut new = Plain.new_child(left, opening);
        self.0(&mut new, left);
        new
    }
}

struct Orphans(fn(&mut IpsecRecord, AddressPair));
impl TableRules for Orphans {
    fn put_child(&self, list: &mut [IpsecRecord], place: usize, opening: &Opening) {
        let orphans = list.iter_mut().filter(|record| is_orphan(record, opening));
        orphans.for_each(|orphan| self.0(orphan, opening.pair));
        Plain.put_child(list, place, opening);
    }
}

struct Order(&'static [Of]);
impl TableRules for Order {
    fn order_of_opening(&self) -> &'static [Of] {
        self.0
    }
}

struct SpiAcrossTables;
impl TableRules for SpiAcrossTables {
    fn check_opening(&self, check: Of, tables: &Tables, adding: &Adding) -> Result<(), Refusal> {
        let elsewhere = find(&tables.ike.records, u64::from(adding.spi), &Plain).is_some();
        if check == Of::InUse && elsewhere {
            return Err(Refusal::SpiInUse);
        }
        Plain.check_opening(check, tables, adding)
    }
}

struct IpsecPairZero;
impl TableRules for IpsecPairZero {
    fn new_ipsec(&self, spi: u32, owner: u64, _ike: &IkeRecord) -> IpsecRecord {
        IpsecRecord { spi, owner, pair: AddressPair::ZERO }
    }
}

struct ListAfterRecord;
impl TableRules for ListAfterRecord {
    fn order_of_closing(&self) -> &'static [closing::Check] {
        use closing::Check::{List, Operator, Record, Spi0};
        &[Spi0, Operator, Record, List]
    }
}

struct MarkSpi0Unknown;
impl TableRules for MarkSpi0Unknown {
    fn order_of_marking(&self) -> &'static [deleting::Check] {
        &[deleting::Check::Operator, deleting::Check::Record]
    }
}

struct Markable(fn(&IkeRecord) -> bool);
impl TableRules for Markable {
    fn markable(
        &self,
        records: &[IkeRecord; IKE_PLACES],
        spi: u64,
        operator: Named,
    ) -> Option<usize> {
        Plain.markable(records, spi, operator).filter(|&place| self.0(&records[place]))
    }
}

struct Marked(fn(&mut IkeRecord, &IkeRecord));
impl TableRules for Marked {
    fn marked(&self, record: &IkeRecord) -> IkeRecord {
        let mut marked = Plain.marked(record);
        self.0(&mut marked, record);
        marked
    }
}

struct Freed(fn(&mut IkeRecord, &IkeRecord));
impl TableRules for Freed {
    fn freed(&self, closed: &IkeRecord) -> IkeRecord {
        let mut freed = Plain.freed(closed);
        self.0(&mut freed, closed);
        freed
    }
}

struct TwinsClosed;
impl TableRules for TwinsClosed {
    fn closed(&self, records: &[IkeRecord; IKE_PLACES], meant: usize) -> Vec<usize> {
        twins(records, meant)
    }
}

/// All places with the SPI of the one that is meant.
pub fn twins(records: &[IkeRecord; IKE_PLACES], meant: usize) -> Vec<usize> {
    (0..IKE_PLACES).filter(|&place| records[place].spi == records[meant].spi).collect()
}

struct FreeOwned;
impl TableRules for FreeOwned {
    fn owns(&self, ike: &IkeRecord, ipsec: &IpsecRecord) -> bool {
        ipsec.owner == ike.spi
    }
}

struct AlsoByPair;
impl TableRules for AlsoByPair {
    fn owns(&self, ike: &IkeRecord, ipsec: &IpsecRecord) -> bool {
        (ipsec.is_in_use() && ipsec.pair == ike.pair) || Plain.owns(ike, ipsec)
    }
}

struct ByPair;
impl TableRules for ByPair {
    fn owns(&self, ike: &IkeRecord, ipsec: &IpsecRecord) -> bool {
        ipsec.is_in_use() && ipsec.pair == ike.pair
    }
}

struct AnyOwner;
impl TableRules for AnyOwner {
    fn owns(&self, _ike: &IkeRecord, ipsec: &IpsecRecord) -> bool {
        ipsec.is_in_use()
    }
}
