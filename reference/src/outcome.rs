// A reading in the form in which the two programs are compared: every field, unused ones included.
use crate::address::{Address, AddressPair};
use crate::cookie::{hand_out, handed_out, HandedOut};
use crate::given_list::{give, given_lists, GivenList, SeenList};
use crate::reader::Reading;
use crate::rules::Rules;
use crate::show;
use crate::summary::{Part, MAX_KEPT};

/// The place of a part as told, and the octets there; all zero and empty if absent.
#[derive(Debug, Clone, Copy, Default, PartialEq, Eq)]
pub struct Place<'a> {
    pub offset: usize,
    pub length: usize,
    /// Empty where the place passes the end of the body.
    pub octets: &'a [u8],
}

#[derive(Debug, Clone, Default, PartialEq, Eq)]
pub struct Outcome<'a> {
    pub number: u8,
    pub offset: usize,
    /// Of the payload that 61 to 65 and 7 are about, else 0.
    pub ordinal: usize,
    /// The type of the payload that 7 is about, else 0.
    pub critical_type: u8,
    pub payloads: usize,
    pub unknown_payloads: usize,
    pub unknown_notifies: usize,
    pub errors: usize,
    pub first_error: u16,
    pub update: u8,
    pub no_additional: u8,
    pub nat_source: Place<'a>,
    pub nat_destination: Place<'a>,
    pub cookie: Place<'a>,
    /// The cookie as it is handed out, then what is for hostile places.
    pub handed_out: Vec<HandedOut<'a>>,
    pub no_nats: Place<'a>,
    /// All zero if NO_NATS_ALLOWED is absent.
    pub no_nats_pair: AddressPair,
    pub addresses: usize,
    pub address_offsets: [usize; MAX_KEPT],
    pub address_families: [u8; MAX_KEPT],
    pub address_list: [Address; MAX_KEPT],
    /// The lists that are given for hostile changes of what was told.
    pub given_lists: Vec<GivenList>,
}

impl<'a> Outcome<'a> {
    /// The reading of this body.
    pub fn of(reading: &Reading<'a>, body: &'a [u8], rules: &impl Rules) -> Self {
        let summary = &reading.summary;
        let cookie = Place::of(summary.cookie);
        let mut outcome = Outcome {
            number: reading.answer.number(rules.chain()),
            offset: reading.answer.offset(),
            ordinal: reading.ordinal,
            critical_type: reading.critical_type,
            payloads: summary.payloads,
            unknown_payloads: summary.unknown_payloads,
            unknown_notifies: summary.unknown_notifies,
            errors: summary.errors.len(),
            first_error: summary.errors.first().map_or(0, |first| first.0),
            update: u8::from(summary.update),
            no_additional: u8::from(summary.no_additional),
            nat_source: Place::of(summary.nat_source),
            nat_destination: Place::of(summary.nat_destination),
            cookie,
            handed_out: handed_out(body, cookie, |at, length| {
                hand_out(body, at, length, rules.parts())
            }),
            no_nats: Place::of(summary.no_nats.map(|no_nats| no_nats.part)),
            no_nats_pair: summary.no_nats.map(|no_nats| no_nats.pair).unwrap_or_default(),
            addresses: summary.addresses,
            ..Outcome::default()
        };
        for (place, kept) in summary.kept.iter().enumerate() {
            outcome.address_offsets[place] = kept.data_offset;
            outcome.address_families[place] = kept.address.family;
            outcome.address_list[place] = kept.address;
        }
        let told = outcome.told_list();
        outcome.given_lists = given_lists(body, told, |seen| give(body, seen, rules.parts()));
        outcome
    }

    /// The additional addresses in the numbers in which they are told.
    fn told_list(&self) -> SeenList {
        SeenList {
            count: self.addresses as u16,
            offsets: self.address_offsets.map(|offset| offset as u16),
            families: self.address_families,
        }
    }

    /// Every field by name, to be shown.
    pub fn fields(&self) -> Vec<(String, String)> {
        let numbers = [
            ("number", usize::from(self.number)),
            ("offset", self.offset),
            ("ordinal", self.ordinal),
            ("critical type", usize::from(self.critical_type)),
            ("payloads", self.payloads),
            ("unknown payloads", self.unknown_payloads),
            ("unknown notifies", self.unknown_notifies),
            ("errors", self.errors),
            ("first error", usize::from(self.first_error)),
            ("update", usize::from(self.update)),
            ("no additional addresses", usize::from(self.no_additional)),
            ("additional addresses", self.addresses),
        ];
        let places = [
            ("NAT source", self.nat_source),
            ("NAT destination", self.nat_destination),
            ("cookie", self.cookie),
            ("no NATs allowed", self.no_nats),
        ];
        let mut fields = Vec::new();
        fields.extend(numbers.map(|(name, value)| (name.to_string(), value.to_string())));
        fields.extend(places.map(|(name, place)| (name.to_string(), place.show())));
        fields.push(("no NATs allowed, pair".to_string(), show::pair(&self.no_nats_pair)));
        for HandedOut { at, length, part } in &self.handed_out {
            fields.push((format!("handed out of {length} octets at {at}"), part.show()));
        }
        for place in 0..MAX_KEPT {
            let (offset, family) = (self.address_offsets[place], self.address_families[place]);
            let told = format!("family {family} at {offset}");
            fields.push((format!("additional address {place}"), told));
            fields
                .push((format!("address list {place}"), show::address(&self.address_list[place])));
        }
        fields.extend(self.given_lists.iter().map(GivenList::field));
        fields
    }
}

impl<'a> Place<'a> {
    pub fn of(part: Option<Part<'a>>) -> Self {
        part.map_or_else(Place::default, |Part { offset, octets }| Place {
            offset,
            length: octets.len(),
            octets,
        })
    }

    /// The place that was told of a part of `body`.
    pub fn in_body(body: &'a [u8], offset: usize, length: usize) -> Self {
        let end = offset.checked_add(length);
        let octets = end.and_then(|end| body.get(offset..end)).unwrap_or_default();
        Place { offset, length, octets }
    }

    /// The place and the length in the numbers in which they are told.
    pub fn as_told(&self) -> (u16, u16) {
        (self.offset as u16, self.length as u16)
    }

    pub fn show(&self) -> String {
        format!("{} octets at {}: {}", self.length, self.offset, show::hex(self.octets))
    }
}
