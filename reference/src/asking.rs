// What the request writer is given: what is asked for, the values lent, and its checks 1 and 2.
use crate::address::{Address, AddressPair};
use crate::calls::{refuse_if, Refusal};
use crate::rules::WriterRules;
use crate::summary::MAX_KEPT;
use crate::writer;

/// The longest request: every notification, sixteen IPv6 addresses, a cookie of 64 octets.
pub const LEAST_OUTPUT: usize = 564;

/// What a request is to carry.
#[derive(Debug, Clone, Copy, Default, PartialEq, Eq)]
pub struct Ask {
    pub update: bool,
    pub no_nats: bool,
    pub nat_source: bool,
    pub nat_destination: bool,
    pub no_additional: bool,
    /// How many addresses.
    pub count: u16,
    /// CLONE_IKE_SA_SUPPORTED.
    pub clone_supported: bool,
    /// CLONE_IKE_SA.
    pub clone: bool,
}

#[derive(Debug, Clone, PartialEq, Eq)]
pub struct Arguments {
    pub ask: Ask,
    /// For NO_NATS_ALLOWED.
    pub pair: AddressPair,
    pub addresses: [Address; MAX_KEPT],
    /// The NAT detection values that the host lends.
    pub nat_source: Vec<u8>,
    pub nat_destination: Vec<u8>,
    /// Empty if none is to be sent.
    pub cookie: Vec<u8>,
    /// What the output holds before the call.
    pub output: Vec<u8>,
}

#[derive(Debug, Clone, Copy, PartialEq, Eq)]
pub enum Check {
    /// 1.
    Argument,
    /// 2.
    Room,
}

impl Arguments {
    /// Checks 1 and 2 in their order.
    pub fn check(&self, rules: &(impl WriterRules + ?Sized)) -> Result<(), Refusal> {
        let room = self.output.len();
        rules.order().into_iter().try_for_each(|check| match check {
            Check::Argument => refuse_if(!rules.is_sound(self), Refusal::Argument),
            Check::Room => {
                let least = rules.least_output(writer::chain(self, rules).len());
                refuse_if(room < least, Refusal::OutputTooShort)
            }
        })
    }

    /// The addresses that are asked for, as far as there are places.
    pub fn listed(&self) -> &[Address] {
        &self.addresses[..usize::from(self.ask.count).min(MAX_KEPT)]
    }
}

/// Whether a cookie of this size may be sent, or have been: none, or one of 8 to 64 octets.
pub fn may_be_sent(size: usize) -> bool {
    matches!(size, 0 | 8..=64)
}
