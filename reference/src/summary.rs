// What a chain without flaws says: its counts, and the notifications that the gateway acts on.
use crate::address::{Address, AddressOctets, AddressPair};
use crate::chain::{Chain, Class, Exchange};
use crate::notify::{Notify, NotifyType};
use crate::rules::ChainRules;

/// So many additional addresses are kept.
pub const MAX_KEPT: usize = 16;

/// A part of the body.
#[derive(Debug, Clone, Copy, PartialEq, Eq)]
pub struct Part<'a> {
    pub offset: usize,
    pub octets: &'a [u8],
}

#[derive(Debug, Clone, Copy, PartialEq, Eq)]
pub struct NoNatsAllowed<'a> {
    pub part: Part<'a>,
    pub pair: AddressPair,
}

#[derive(Debug, Clone, Copy, PartialEq, Eq)]
pub struct AdditionalAddress {
    pub data_offset: usize,
    pub address: Address,
}

#[derive(Debug, Default)]
pub struct Summary<'a> {
    pub payloads: usize,
    pub unknown_payloads: usize,
    pub unknown_notifies: usize,
    /// Of the unknown notifications, the types that tell errors, in order.
    pub errors: Vec<NotifyType>,
    pub update: bool,
    /// CLONE_IKE_SA_SUPPORTED and CLONE_IKE_SA, where they are known.
    pub clone_supported: bool,
    pub clone: bool,
    pub no_additional: bool,
    pub no_nats: Option<NoNatsAllowed<'a>>,
    pub nat_source: Option<Part<'a>>,
    pub nat_destination: Option<Part<'a>>,
    pub cookie: Option<Part<'a>>,
    /// How many additional addresses there are, kept or not.
    pub addresses: usize,
    /// The first of them, in order.
    pub kept: Vec<AdditionalAddress>,
}

/// Sums up a chain in which no flaw was found.
pub fn summarise<'a>(
    chain: &Chain<'a>,
    exchange: Exchange,
    rules: &(impl ChainRules + ?Sized),
) -> Summary<'a> {
    let mut summary = Summary { payloads: rules.count(chain), ..Summary::default() };
    for payload in &chain.payloads {
        match rules.class(payload.payload_type) {
            Class::Skipped => {}
            Class::Unknown => summary.unknown_payloads += 1,
            Class::Notify => {
                let notify = rules.notify(payload).expect("a flawed Notify was refused");
                summary.add(notify, exchange, rules);
            }
        }
    }
    summary
}

impl<'a> Summary<'a> {
    /// Whether both NAT detection kinds are there.
    pub fn has_both_nat_kinds(&self) -> bool {
        self.nat_source.is_some() && self.nat_destination.is_some()
    }

    /// Whether there is a list of additional addresses, an empty one too.
    pub fn has_list(&self) -> bool {
        self.addresses > 0 || self.no_additional
    }

    fn add(&mut self, notify: Notify<'a>, exchange: Exchange, rules: &(impl ChainRules + ?Sized)) {
        let part = Part { offset: notify.data_offset, octets: notify.data };
        match notify.notify_type {
            NotifyType::NAT_DETECTION_SOURCE_IP => {
                self.nat_source = Some(rules.nat_source(self.nat_source, part));
            }
            NotifyType::NAT_DETECTION_DESTINATION_IP => self.nat_destination = Some(part),
            NotifyType::MOBIKE_SUPPORTED => {}
            NotifyType::ADDITIONAL_IP4_ADDRESS => self.add_address(4, part, rules),
            NotifyType::ADDITIONAL_IP6_ADDRESS => self.add_address(6, part, rules),
            NotifyType::NO_ADDITIONAL_ADDRESSES => self.no_additional = true,
            NotifyType::UPDATE_SA_ADDRESSES => self.update = true,
            NotifyType::COOKIE2 => self.cookie = Some(part),
            NotifyType::NO_NATS_ALLOWED => self.no_nats = Some(rules.no_nats(part)),
            other if other.is_of_clones() && rules.knows_clones(exchange) => {
                self.clone_supported |= other == NotifyType::CLONE_IKE_SA_SUPPORTED;
                self.clone |= other == NotifyType::CLONE_IKE_SA;
            }
            unknown => self.add_unknown(unknown, rules),
        }
    }

    fn add_address(&mut self, family: u8, part: Part, rules: &(impl ChainRules + ?Sized)) {
        if self.kept.len() < rules.most_addresses() {
            let address = Address { family, octets: padded(part.octets) };
            self.kept.push(AdditionalAddress { data_offset: part.offset, address });
        }
        self.addresses += 1;
    }

    fn add_unknown(&mut self, unknown: NotifyType, rules: &(impl ChainRules + ?Sized)) {
        if rules.is_error(unknown) {
            self.errors.push(unknown);
        }
        self.unknown_notifies += usize::from(rules.is_tallied(unknown));
    }
}

/// At most sixteen octets as they are held, with zeros after.
pub fn padded(address: &[u8]) -> AddressOctets {
    let mut octets = [0; 16];
    octets[..address.len()].copy_from_slice(address);
    octets
}
