//! The limits, under the names that the definitions and the C header have.

/// The longest body that is read.
pub const BODY_MOST: usize = 4096;
/// The places of the table of IKE records.
pub const IKE_PLACES: usize = 32;
/// The places of the list of IPsec records; a list of any other length is a bad argument.
pub const IPSEC_PLACES: usize = 128;
/// IKE records of one peer of an operator; none of them is cloned once there are as many.
pub const PEER_RECORDS_MOST: usize = 4;
/// The operators that share a gateway, and its policies.
pub const OPERATORS: usize = 2;
/// IKE records of one operator; it opens and clones none once there are as many.
pub const IKE_SHARE: usize = 20;
/// IPsec records of one operator; it opens none once there are as many.
pub const IPSEC_SHARE: usize = 80;
/// The additional addresses that are kept, or written.
pub const ADDRESSES_MOST: usize = 16;
/// The rules of a policy.
pub const RULES_MOST: usize = 16;
/// An address as it travels, of either family.
pub const ADDRESS_OCTETS: usize = 16;
/// An IPv4 address in a payload.
pub const IP4_OCTETS: usize = 4;
/// An IPv6 address in a payload.
pub const IP6_OCTETS: usize = 16;
/// A port in a payload.
pub const PORT_SIZE: usize = 2;
/// What stands before a payload's content.
pub const PAYLOAD_HEADER: usize = 4;
/// What stands before a Notify's data, with no SPI.
pub const NOTIFY_HEADER: usize = PAYLOAD_HEADER + 4;
/// A NAT detection value.
pub const NAT_OCTETS: usize = 20;
/// The shortest COOKIE2, and the shortest cookie of a check.
pub const COOKIE_LEAST: usize = 8;
/// The longest.
pub const COOKIE_MOST: usize = 64;
/// A NO_NATS_ALLOWED of IPv4: two addresses and two ports.
pub const NO_NATS_LEAST: usize = 2 * IP4_OCTETS + 2 * PORT_SIZE;
/// A NO_NATS_ALLOWED of IPv6.
pub const NO_NATS_MOST: usize = 2 * IP6_OCTETS + 2 * PORT_SIZE;
/// The least output for a response, 128 octets: both NAT detections and a COOKIE2.
pub const RESPONSE_ROOM: usize = 2 * (NOTIFY_HEADER + NAT_OCTETS) + (NOTIFY_HEADER + COOKIE_MOST);
/// The least output for a request, 564 octets: all that can be asked for.
pub const REQUEST_ROOM: usize = NOTIFY_HEADER
    + (NOTIFY_HEADER + NO_NATS_MOST)
    + 2 * (NOTIFY_HEADER + NAT_OCTETS)
    + ADDRESSES_MOST * (NOTIFY_HEADER + IP6_OCTETS)
    + (NOTIFY_HEADER + COOKIE_MOST);
/// What stands before the identity in the data of a redirect: its type and its size.
pub const IDENTITY_HEADER: usize = 2;
/// The shortest name of a gateway.
pub const FQDN_LEAST: usize = 1;
/// The longest name of a gateway.
pub const FQDN_MOST: usize = 255;
/// The shortest nonce.
pub const NONCE_LEAST: usize = 16;
/// The longest nonce.
pub const NONCE_MOST: usize = 256;
/// The least output for the data of a redirect, 513 octets, whatever is written.
pub const REDIRECT_ROOM: usize = IDENTITY_HEADER + FQDN_MOST + NONCE_MOST;
/// How many redirects are accepted within a period, and how many times are kept.
pub const REDIRECTS_MOST: usize = 5;
/// The period, in seconds.
pub const PERIOD_SECONDS: u64 = 300;
/// The slots of an entry of a trace: as many as the widest kind has, a policy.
pub const ENTRY_SLOTS: usize = 1 + RULES_MOST * 5 + 1;
/// The longest string of an entry.
pub const STRING_MOST: usize = 4096;
/// The octets of the longest entry, a request with four such strings. A number takes an octet for every
/// seven bits: 10 for 64, 5 for 32, 3 for 16, 2 for 8 and for a string's length, 1 for 1.
pub const ENTRY_MOST: usize =
    1 + 10 + 5 + (2 + 2 * ADDRESS_OCTETS + 2 * 3) + 4 * (2 + STRING_MOST) + 2 + 5 + 1;
/// Where a record's tally of what is unknown stays.
pub const TALLY_MOST: u32 = u32::MAX;

const _: () = assert!(REDIRECT_ROOM == 513);
const _: () = assert!(RESPONSE_ROOM == 128);
const _: () = assert!(REQUEST_ROOM == 564);
const _: () = assert!(ENTRY_SLOTS == 82);
const _: () = assert!(ENTRY_MOST == 16456);
