//! The address policy: which pairs a peer may move to.
use super::addresses::padded;
use crate::limits::{ADDRESS_OCTETS, IP4_OCTETS, RULES_MOST};

/// One rule: a pair is acceptable to it that has its family, its source within the first prefix and
/// its destination within the second.
#[repr(C)]
#[derive(Debug, Clone, Copy, Default, PartialEq, Eq)]
pub struct Rule {
    /// 4 or 6.
    pub family: u8,
    /// The prefix of the peer's address.
    pub source: [u8; ADDRESS_OCTETS],
    /// The prefix of the gateway's address.
    pub destination: [u8; ADDRESS_OCTETS],
    /// How many bits of the first prefix count, at most 32 or 128.
    pub source_len: u8,
    /// How many bits of the second prefix count, at most 32 or 128.
    pub destination_len: u8,
}

/// Up to [`RULES_MOST`] rules, one operator's. The empty policy, [`Policy::EMPTY`], accepts nothing.
#[repr(C)]
#[derive(Debug, Clone, Copy, PartialEq, Eq)]
pub struct Policy {
    /// How many rules there are; over [`RULES_MOST`] it reads as that.
    pub count: u16,
    /// The rules; those past the count aren't looked at.
    pub rules: [Rule; RULES_MOST],
}

laid_out!(Rule, size 35, align 1, {
    family: 0, source: 1, destination: 17, source_len: 33, destination_len: 34,
});
laid_out!(Policy, size 562, align 2, { count: 0, rules: 2 });

impl Rule {
    /// A rule of no family, which accepts nothing.
    pub const NONE: Rule = Rule {
        family: 0,
        source: [0; ADDRESS_OCTETS],
        destination: [0; ADDRESS_OCTETS],
        source_len: 0,
        destination_len: 0,
    };

    /// An IPv4 rule: the prefix of the peer's address with its bits, then the gateway's.
    pub const fn ipv4(source: ([u8; IP4_OCTETS], u8), destination: ([u8; IP4_OCTETS], u8)) -> Rule {
        Rule {
            family: 4,
            source: padded(source.0),
            destination: padded(destination.0),
            source_len: source.1,
            destination_len: destination.1,
        }
    }

    /// An IPv6 rule: the prefix of the peer's address with its bits, then the gateway's.
    pub const fn ipv6(
        source: ([u8; ADDRESS_OCTETS], u8),
        destination: ([u8; ADDRESS_OCTETS], u8),
    ) -> Rule {
        Rule {
            family: 6,
            source: source.0,
            destination: destination.0,
            source_len: source.1,
            destination_len: destination.1,
        }
    }
}

impl Policy {
    /// No rules: nothing is acceptable. A gateway begins with this.
    pub const EMPTY: Policy = Policy { count: 0, rules: [Rule::NONE; RULES_MOST] };
}

impl Default for Policy {
    fn default() -> Self {
        Policy::EMPTY
    }
}
