// What a row's call is given, on either side.
use crate::chains::{self, CHECK_COOKIE, COOKIE, NAT_DESTINATION, NAT_SOURCE, NOTIFY};
use unmavreth::limits::{IKE_SHARE, IPSEC_PLACES, IPSEC_SHARE, OPERATORS};
use unmavreth::redirect::{Exchange, Redirects};
use unmavreth::trace::Entry;
use unmavreth::{
    Address, Agreed, Ask, CheckResponse, CloneRequest, Draft, Effect, Flag, Gateway, IkeRecord,
    IpsecRecord, Number, Opening, Operator, Pair, Policy, Request, Rule,
};

pub enum Job {
    Read { first: u8, body: Vec<u8> },
    Handle(Box<Handling>),
    Check(Box<Checking>),
    Open(Box<OpeningBoth>),
    Clone(Box<Cloning>),
    Decide(Box<Deciding>),
    Write(Box<Draft<'static>>),
    Assess { first: u8, body: Vec<u8> },
    Acceptable(Box<Asking>),
}

/// A policy, the pair that it is asked about, and whose it is: A's or B's.
pub struct Asking {
    pub policy: Policy,
    pub pair: Pair,
    pub operator: Operator,
}

/// A REDIRECT, with the client's record that is lent for it.
pub struct Deciding {
    pub record: Redirects,
    pub exchange: Exchange,
    pub sent: Vec<u8>,
    pub time: u64,
    pub data: Vec<u8>,
}

/// A request, with the tables and the output that are lent for it.
pub struct Handling {
    pub gateway: Gateway,
    pub spi: u64,
    pub pair: Pair,
    pub nat_source: Vec<u8>,
    /// For a check.
    pub cookie: Vec<u8>,
    pub first: u8,
    pub body: Vec<u8>,
    /// How long the output is, at most 128 octets.
    pub room: usize,
    pub operator: Operator,
}

/// A response to a check, with the tables that are lent for it.
pub struct Checking {
    pub gateway: Gateway,
    pub id: u32,
    pub first: u8,
    pub body: Vec<u8>,
    pub operator: Operator,
}

/// An opening of both records, with the tables that are lent for it.
pub struct OpeningBoth {
    pub gateway: Gateway,
    pub opening: Opening,
}

/// A request to clone, with the table and the output that are lent for it.
pub struct Cloning {
    pub gateway: Gateway,
    pub spi: u64,
    pub new_spi: u64,
    pub first: u8,
    pub body: Vec<u8>,
    /// How long the output is, at most 128 octets.
    pub room: usize,
    pub operator: Operator,
}

/// Whose calls are counted; the other one's records stand before its own.
pub const OPERATOR: Operator = Operator::A;
const OTHER_OPERATOR: Operator = Operator::B;
pub const OWNER: u64 = 7;
const OTHER: u64 = 8;
/// The two records, each with its first IPsec record, and then its second one.
const OPENED: [(u64, u32); 2] = [(OWNER, 71), (OTHER, 81)];
const ADDED: [(u32, u64); 2] = [(72, OWNER), (82, OTHER)];
const ID: u32 = 3;
const CHECK_ID: u32 = 1;
const OLD: Pair = Pair::ipv4(([203, 0, 113, 5], 4500), ([192, 0, 2, 1], 4500));
const NEW: Pair = Pair::ipv4(([198, 51, 100, 7], 4500), ([192, 0, 2, 1], 4500));
/// Within no rule.
pub const ELSEWHERE: Pair = Pair::ipv4(([203, 0, 113, 6], 4500), ([192, 0, 2, 1], 4500));
const RULE: Rule = Rule::ipv4(([198, 51, 100, 0], 24), ([192, 0, 2, 0], 24));

impl Handling {
    /// This request to the first of two records, each of which owns two IPsec records.
    pub fn of(first: u8, body: Vec<u8>) -> Self {
        let mut gateway = with_policy();
        for (spi, child) in OPENED {
            done(gateway.open(&opening(spi, child)));
        }
        for (spi, owner) in ADDED {
            done(gateway.open_ipsec(spi, owner, OPERATOR));
        }
        Handling::on(gateway, first, body)
    }

    fn on(gateway: Gateway, first: u8, body: Vec<u8>) -> Self {
        let (nat_source, cookie) = (NAT_SOURCE.to_vec(), CHECK_COOKIE.to_vec());
        let (spi, pair, room, operator) = (OWNER, NEW, 128, OPERATOR);
        Handling { gateway, spi, pair, nat_source, cookie, first, body, room, operator }
    }

    /// The update, to the last of 32 records, which owns this many of 128 IPsec records.
    pub fn owning(owned: usize) -> Self {
        Handling::on(full(owned), NOTIFY, chains::update())
    }

    /// The request as the library is given it.
    pub fn request(&self) -> Request<'_> {
        Request {
            spi: self.spi,
            id: ID,
            pair: self.pair,
            nat_source: &self.nat_source,
            nat_destination: &NAT_DESTINATION,
            first: self.first,
            body: &self.body,
            cookie: &self.cookie,
            check_id: CHECK_ID,
            operator: self.operator,
        }
    }
}

impl Checking {
    /// The right response to the check that the update left, of the last of 32 records, which owns this many
    /// of 128 IPsec records.
    pub fn owning(owned: usize) -> Self {
        let update = Handling::owning(owned);
        let mut gateway = update.gateway.clone();
        let reply = gateway.handle(&update.request(), &mut [0; 128]);
        assert_eq!((reply.number(), reply.update()), (Number::Done, Effect::Applied));
        let (body, operator) = (chains::check_response(), OPERATOR);
        Checking { gateway, id: CHECK_ID, first: NOTIFY, body, operator }
    }

    /// The response as the library is given it.
    pub fn response(&self) -> CheckResponse<'_> {
        let Checking { id, first, ref body, operator, .. } = *self;
        CheckResponse { spi: OWNER, id, first, body, operator }
    }
}

impl OpeningBoth {
    pub fn on_empty() -> Self {
        OpeningBoth { gateway: with_policy(), opening: opening(OWNER, 71) }
    }

    /// Of SPIs that no record has, by the operator that has what the other's shares leave.
    pub fn on_full() -> Self {
        let owned = IPSEC_PLACES - IPSEC_SHARE;
        OpeningBoth { gateway: full(owned), opening: opening(OTHER, 81) }
    }

    /// By one that has its share of the IPsec records, and not of the IKE records.
    pub fn at_share() -> Self {
        OpeningBoth { gateway: full(IPSEC_SHARE), opening: opening(OTHER, 81) }
    }
}

impl Cloning {
    /// A rekey of the last of 31 records, the only one of its peer; the other operator has its share of them.
    pub fn of_last() -> Self {
        let mut gateway = with_policy();
        for (place, spi) in (101..131).chain([OWNER]).enumerate() {
            let (mobike, cloning) = (Flag::YES, Flag::YES);
            let agreed = Agreed { mobike, cloning, operator: owner_of(place), peer: spi as u32 };
            done(gateway.open(&Opening { agreed, ..opening(spi, spi as u32) }));
        }
        let (first, body, room, operator) = (NOTIFY, chains::rekey(), 128, OPERATOR);
        Cloning { gateway, spi: OWNER, new_spi: OTHER, first, body, room, operator }
    }

    /// The request as the library is given it.
    pub fn request(&self) -> CloneRequest<'_> {
        let Cloning { spi, new_spi, first, ref body, operator, .. } = *self;
        CloneRequest { spi, new_spi, first, body, operator }
    }
}

impl Deciding {
    /// A REDIRECT to an IPv4 address with the nonce of 32 octets that was sent, in IKE_SA_INIT, a second
    /// after the last of five accepted ones, the first of which was `since` seconds before.
    pub fn after(since: u64) -> Self {
        let sent: Vec<u8> = (1..=32).collect();
        let data = [&[1, 4, 192, 0, 2, 2], &sent[..]].concat();
        let time = 1000;
        let record = Redirects { count: 5, times: [time - since, 998, 998, 999, 999] };
        Deciding { record, exchange: Exchange::SaInit, sent, time, data }
    }
}

impl Asking {
    /// Sixteen IPv6 rules with prefixes of 127 bits. The pair's source differs from theirs in these bits of
    /// its last octet, its destination in those.
    pub fn ipv6(source: u8, destination: u8) -> Self {
        let [near, far] = [0x40, 0x80];
        let rule = Rule::ipv6((ipv6(near), 127), (ipv6(far), 127));
        let pair = Pair::ipv6((ipv6(near ^ source), 4500), (ipv6(far ^ destination), 4500));
        Asking { policy: Policy { count: 16, rules: [rule; 16] }, pair, operator: OPERATOR }
    }

    /// Both policies, as the library is lent them: the other operator's has no rules.
    pub fn policies(&self) -> [Policy; OPERATORS] {
        let mut policies = [Policy::EMPTY; OPERATORS];
        policies[usize::from(u8::from(self.operator))] = self.policy;
        policies
    }
}

/// An address of 2001:db8::/32 with this last octet, whose other octets differ from one another.
fn ipv6(last: u8) -> [u8; 16] {
    [0x20, 1, 0xd, 0xb8, 5, 6, 7, 8, 9, 10, 11, 12, 14, 15, 16, last]
}

const AGREED: Agreed = Agreed { mobike: Flag::YES, operator: OPERATOR, ..Agreed::NONE };

fn opening(spi: u64, child: u32) -> Opening {
    Opening { spi, agreed: AGREED, pair: OLD, child }
}

/// Whose the record at this place is, where all places are in use: the other operator has its share.
fn owner_of(place: usize) -> Operator {
    if place < IKE_SHARE {
        OTHER_OPERATOR
    } else {
        OPERATOR
    }
}

/// The calls that make the policy and the tables of `Handling::of`, as entries of a trace.
pub fn calls_before() -> Vec<Entry<'static>> {
    let mut policy = Policy { count: 1, ..Policy::EMPTY };
    policy.rules[0] = RULE;
    let opened = OPENED.map(|(spi, child)| Entry::OpenBoth(opening(spi, child)));
    let added = ADDED.map(|(spi, owner)| Entry::AddIpsec { spi, owner, operator: OPERATOR });
    let policy = Entry::Policy { policy, operator: OPERATOR };
    [policy].into_iter().chain(opened).chain(added).collect()
}

/// All places in use; the last of 32 records owns this many of 128 IPsec records, the first ones, and the first
/// record, the other operator's, the others. Set as a host may lend them, since by the calls neither operator has
/// more than its share.
fn full(owned: usize) -> Gateway {
    let mut gateway = with_policy();
    for (place, spi) in (101..132).chain([OWNER]).enumerate() {
        let agreed = Agreed { operator: owner_of(place), ..AGREED };
        gateway.ike[place] = IkeRecord { spi, agreed, pair: OLD, ..IkeRecord::FREE };
    }
    for (place, record) in gateway.ipsec.iter_mut().enumerate() {
        let owner = if place < owned { OWNER } else { 101 };
        *record = IpsecRecord { spi: 1000 + place as u32, owner, pair: OLD };
    }
    gateway
}

/// What is measured begins as it was meant to.
fn done(number: Number) {
    assert_eq!(number, Number::Done);
}

fn with_policy() -> Gateway {
    let mut gateway = Gateway::new();
    done(gateway.set_policy(&[RULE], OPERATOR));
    gateway
}

/// The update's chain, as it is to be written.
pub fn draft() -> Draft<'static> {
    let mut addresses = [Address::NONE; 16];
    for (place, octets) in addresses.iter_mut().zip(chains::ADDITIONAL) {
        *place = Address::ipv4(octets);
    }
    let ask =
        Ask { update: true, nat_source: true, nat_destination: true, count: 2, ..Ask::default() };
    Draft {
        ask,
        pair: Pair::NONE,
        addresses,
        nat_source: &NAT_SOURCE,
        nat_destination: &NAT_DESTINATION,
        cookie: &COOKIE,
    }
}
