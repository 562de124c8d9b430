// The library's table calls: its C interface, which is lent the tables and changes them in place.
use reference::address::AddressPair;
use reference::agreed::Agreed;
use reference::calls::Call;
use reference::lent::{LentTables, NO_SPI_GIVEN};
use reference::lent_rules::BetweenRules;
use reference::opening::Adding;
use reference::opening_both::Opening;
use reference::operator::OPERATORS;
use reference::pending::PendingCheck;
use reference::policy::{Policy, Rule, RuleList};
use reference::tables::{IkeRecord, IpsecRecord, Tables};
use std::mem::{offset_of, size_of};

const _: () = assert!(size_of::<IkeRecord>() == 432 && size_of::<IpsecRecord>() == 56);
const _: () = assert!(offset_of!(IkeRecord, unknown) == 348 && offset_of!(IkeRecord, check) == 352);
const _: () = assert!(offset_of!(IkeRecord, deleting) == 424);
const _: () = assert!(size_of::<PendingCheck>() == 72 && offset_of!(PendingCheck, length) == 0);
const _: () = assert!(offset_of!(PendingCheck, octets) == 1 && offset_of!(PendingCheck, id) == 68);
const _: () = assert!(offset_of!(IkeRecord, agreed) == 8 && offset_of!(IkeRecord, pair) == 16);
const _: () = assert!(offset_of!(IkeRecord, count) == 72 && offset_of!(IkeRecord, addresses) == 74);
const _: () = assert!(size_of::<Agreed>() == 8 && offset_of!(Agreed, mobike) == 0);
const _: () = assert!(offset_of!(Agreed, cloning) == 1 && offset_of!(Agreed, peer) == 4);
const _: () = assert!(offset_of!(Agreed, operator) == 2);
const _: () = assert!(offset_of!(IpsecRecord, owner) == 8 && offset_of!(IpsecRecord, pair) == 16);
const _: () = assert!(size_of::<Opening>() == 64 && offset_of!(Opening, agreed) == 8);
const _: () = assert!(offset_of!(Opening, pair) == 16 && offset_of!(Opening, child) == 56);
const _: () = assert!(size_of::<Rule>() == 35 && offset_of!(Rule, source_length) == 33);
const _: () = assert!(size_of::<Policy>() == 562 && offset_of!(Policy, rules) == 2);
const _: () = assert!(size_of::<[Policy; OPERATORS]>() == 1124);
const _: () = assert!(size_of::<RuleList>() == 560);

// Each start of IKE records is that of 32, and that of policies of one for each operator.
#[link(name = "unmavreth", kind = "static")]
extern "C" {
    fn unmavreth_open(
        ike: *mut IkeRecord,
        ipsec: *mut IpsecRecord,
        ipsec_len: usize,
        opening: Opening,
    ) -> u8;
    fn unmavreth_open_ipsec(
        ike: *const IkeRecord,
        ipsec: *mut IpsecRecord,
        ipsec_len: usize,
        spi: u32,
        owner: u64,
        operator: u8,
    ) -> u8;
    fn unmavreth_close_ike(
        ike: *mut IkeRecord,
        ipsec: *mut IpsecRecord,
        ipsec_len: usize,
        spi: u64,
        operator: u8,
    ) -> u8;
    fn unmavreth_close_ipsec(
        ike: *const IkeRecord,
        ipsec: *mut IpsecRecord,
        ipsec_len: usize,
        spi: u32,
        operator: u8,
    ) -> u8;
    fn unmavreth_mark_deletion(ike: *mut IkeRecord, spi: u64, operator: u8) -> u8;
    fn unmavreth_set_policy(
        policies: *mut [Policy; OPERATORS],
        count: u16,
        rules: *const RuleList,
        operator: u8,
    ) -> u8;
    /// Given back as an octet, so that any value may be looked at.
    fn unmavreth_acceptable(
        policies: *const [Policy; OPERATORS],
        pair: AddressPair,
        operator: u8,
    ) -> u8;
}

/// Makes the call on the tables by the library; what it gives back is as for `Call::make`, with
/// whether what is around all that was lent is kept, and the rules that were lent for reading.
pub fn make(call: &Call, tables: &mut Tables) -> (u8, bool) {
    let mut lent = LentTables::new(tables, spis(call), call.operator());
    let given = given_rules(call);
    let mut rules = BetweenRules::new(given);
    let number = make_on(call, &mut lent, rules.start());
    let kept_rules = rules.lent() == given && rules.is_kept_around();
    (number, lent.give_back(tables) && kept_rules)
}

/// The SPIs that the call gives, of an IKE and of an IPsec record.
fn spis(call: &Call) -> (u64, u32) {
    let none = u64::from(NO_SPI_GIVEN);
    match *call {
        Call::OpenBoth(Opening { spi, child, .. }) => (spi, child),
        Call::OpenIpsec(Adding { spi, owner, .. }) => (owner, spi),
        Call::CloseIke { spi, .. } | Call::MarkDeletion { spi, .. } => (spi, NO_SPI_GIVEN),
        Call::CloseIpsec { spi, .. } => (none, spi),
        Call::SetPolicy { .. } | Call::Acceptable { .. } => (none, NO_SPI_GIVEN),
    }
}

/// The rules that the call gives, if it does.
fn given_rules(call: &Call) -> RuleList {
    match call {
        Call::SetPolicy { rules, .. } => **rules,
        _ => RuleList { rules: Policy::EMPTY.rules },
    }
}

fn make_on(call: &Call, lent: &mut LentTables, rules: *const RuleList) -> u8 {
    let ike = lent.ike().as_mut_ptr();
    let ipsec_length = lent.ipsec().len();
    let ipsec = lent.ipsec().as_mut_ptr();
    let policies = lent.policies();
    match *call {
        Call::OpenBoth(opening) => {
            // SAFETY: each start and length are those of a slice that outlives the call, that of
            // the IKE records has its 32, that of the policies two, that of the rules is one's, and no
            // two of these overlap; the rest goes by value, and any is allowed.
            unsafe { unmavreth_open(ike, ipsec, ipsec_length, opening) }
        }
        Call::OpenIpsec(Adding { spi, owner, operator }) => {
            // SAFETY: as above.
            unsafe { unmavreth_open_ipsec(ike, ipsec, ipsec_length, spi, owner, operator) }
        }
        Call::CloseIke { spi, operator } => {
            // SAFETY: as above.
            unsafe { unmavreth_close_ike(ike, ipsec, ipsec_length, spi, operator) }
        }
        Call::CloseIpsec { spi, operator } => {
            // SAFETY: as above.
            unsafe { unmavreth_close_ipsec(ike, ipsec, ipsec_length, spi, operator) }
        }
        Call::MarkDeletion { spi, operator } => {
            // SAFETY: as above.
            unsafe { unmavreth_mark_deletion(ike, spi, operator) }
        }
        Call::SetPolicy { count, operator, .. } => {
            // SAFETY: as above.
            unsafe { unmavreth_set_policy(policies, count, rules, operator) }
        }
        Call::Acceptable { pair, operator } => {
            // SAFETY: as above.
            unsafe { unmavreth_acceptable(policies, pair, operator) }
        }
    }
}
