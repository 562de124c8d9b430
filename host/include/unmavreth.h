// The calls of Unmavreth, the MOBIKE part (RFC 4555) of a VPN gateway, for C11 and C++11 on x86-64 Linux.
//
// The host authenticates, decrypts, keeps the message window, repeats a cached response to a retransmission, computes
// NAT detection values and owns all memory. The library reads payload chains, decides, changes the tables that it is
// lent, and writes payloads. What a call gives depends on its arguments and on what it is lent, and on nothing else:
// the library keeps nothing between calls.
//
// What is lent (everything passed by pointer) must, for as long as the call runs:
//   - be memory that the host owns, of the whole length that it passes; no pointer is null, not even with length 0;
//   - hold any octets whatever: no argument and no struct that is lent or passed has a bool, so there is no wrong value;
//   - not overlap anything else that is lent to the same call, if it is lent for writing (a pointer without const);
//   - be left alone by everyone else: no other thread writes it, or reads it if it is lent for writing.
// No call keeps a pointer to what it was lent; unmavreth_cookie, unmavreth_nat_value and the calls that read a redirect
// or decide on one hand out a part of the octets that they were lent.
//
// The promises are about fields and octets, not about padding: compare records field by field, not with memcmp.
//
// unmavreth_host.h has the calls with fewer arguments, unmavreth_sockaddr.h socket addresses, unmavreth_words.h words
// for every number. What a host does around the calls, with IKE_AUTH, with a rekeyed SA, and after a refusal, stands in
// docs/HOST.md, which is also in the manual page unmavreth(3).
//
// Stack: reading a chain (unmavreth_read, unmavreth_handle, unmavreth_check, unmavreth_clone, unmavreth_assess) calls
// itself once for each payload, at most 1,024 deep. How much stack a call takes is not proved but measured (host/stack;
// docs/HOST.md has each): these five under 35,000 octets, the request writer under 8,000, an entry of a trace read
// under 23,000. Call from a thread with at least 64 KiB of stack.
#ifndef UNMAVRETH_H
#define UNMAVRETH_H

#include <stdbool.h>
#include <stddef.h>
#include <stdint.h>

#ifdef __cplusplus
#define UNMAVRETH_ASSERT(holds, words) static_assert(holds, words)
extern "C" {
#else
#define UNMAVRETH_ASSERT(holds, words) _Static_assert(holds, words)
#endif

// A compiler that knows how warns where what a call gives is dropped, so that no refusal goes unnoticed.
#if defined(__GNUC__)
#define UNMAVRETH_MUST_USE __attribute__((warn_unused_result))
#elif defined(__cplusplus) && __cplusplus >= 201703L
#define UNMAVRETH_MUST_USE [[nodiscard]]
#else
#define UNMAVRETH_MUST_USE
#endif

// ----------------------------------------------------------------------------------------------------------- version

// The number of the interface: the layout of the structs below and the calls. It is raised with every change of them.
// Whatever includes this header refers to the library's symbol that ends in this number, so that a header and an
// archive of different numbers do not link.
#define UNMAVRETH_INTERFACE 5

#define UNMAVRETH_JOINED(name, number) name##number
#define UNMAVRETH_NAMED(name, number) UNMAVRETH_JOINED(name, number)
#if defined(__has_attribute)
#if __has_attribute(retain)
#define UNMAVRETH_KEPT __attribute__((used, retain)) // by the linker too, if it drops what nothing refers to
#endif
#endif
#if !defined(UNMAVRETH_KEPT) && defined(__GNUC__)
#define UNMAVRETH_KEPT __attribute__((used))
#elif !defined(UNMAVRETH_KEPT)
#define UNMAVRETH_KEPT
#endif

// The number of the library that is linked, for a host that loads it when it runs: it is to be UNMAVRETH_INTERFACE.
UNMAVRETH_MUST_USE
uint32_t unmavreth_interface(void);

// The same, by a name that has the number in it. Not for a host to call.
uint32_t UNMAVRETH_NAMED(unmavreth_interface_, UNMAVRETH_INTERFACE)(void);
UNMAVRETH_KEPT static uint32_t (*const unmavreth_interface_linked)(void) = UNMAVRETH_NAMED(unmavreth_interface_,
                                                                                          UNMAVRETH_INTERFACE);

// The library was built for this layout: a compiler that lays a struct out otherwise is stopped here.
#define UNMAVRETH_SIZE(type, octets) UNMAVRETH_ASSERT(sizeof(type) == (octets), "size of " #type)
#define UNMAVRETH_AT(type, field, octet) UNMAVRETH_ASSERT(offsetof(type, field) == (octet), "offset of " #field)

// ---------------------------------------------------------------------------------------------------- numbers, sizes

// The number that a call gives. Which of them, and in which order they are checked, stands at each call.
enum unmavreth_number {
    UNMAVRETH_DONE = 0,
    UNMAVRETH_BAD_ARGUMENT = 1,
    UNMAVRETH_OUTPUT_TOO_SHORT = 2,
    UNMAVRETH_BODY_TOO_LONG = 3,
    UNMAVRETH_NO_SUCH_RECORD = 4,
    UNMAVRETH_MOBIKE_NOT_AGREED = 5,
    UNMAVRETH_BAD_CHAIN_LENGTH = 61, // under 4 octets left where a payload is due, or a length under 4 or past the end
    UNMAVRETH_BAD_NOTIFY = 62,       // a Notify under 8 octets, an SPI past its length, or one where its type has none
    UNMAVRETH_BAD_DATA_SIZE = 63,    // data of a size that its notify type does not have
    UNMAVRETH_REPEATED = 64,         // a repeated or contradictory notification
    UNMAVRETH_OCTETS_AFTER_END = 65, // octets after the end of the chain
    UNMAVRETH_UNKNOWN_CRITICAL = 7,  // a payload of an unknown type with its critical bit set
    UNMAVRETH_ADDRESSES_ALTERED = 8, // NO_NATS_ALLOWED is not the packet's addresses and ports
    UNMAVRETH_NOT_ACCEPTABLE = 9,    // no rule of the operator's policy matches the packet's pair
    UNMAVRETH_FULL = 10,
    UNMAVRETH_SPI_IN_USE = 11,
    UNMAVRETH_BAD_POLICY = 12,        // over 16 rules, or a prefix too long
    UNMAVRETH_CHECK_NOT_PENDING = 14, // no return routability check is under way by a request of ours with this ID
    UNMAVRETH_CUT = 20,               // a trace ends within an entry, or has a number not shortest or past 64 bits
    UNMAVRETH_UNKNOWN_KIND = 21,      // of an entry of a trace
    UNMAVRETH_TOO_LARGE = 22,         // a number, a count or a length of a trace, for its field
    // redirects: data cut or left over, an identity of a type or size that cannot be, or our nonce of such a size
    UNMAVRETH_BAD_REDIRECT = 30,
    UNMAVRETH_WRONG_EXCHANGE = 31,     // a REDIRECT in a middle IKE_AUTH response, or with a nonce outside IKE_SA_INIT
    UNMAVRETH_WRONG_NONCE = 32,        // a REDIRECT in IKE_SA_INIT without the nonce that was sent
    UNMAVRETH_TIME_BEFORE_LAST = 33,   // of a REDIRECT: before the last accepted one's
    UNMAVRETH_TOO_MANY_REDIRECTS = 34, // five accepted ones less than 300 seconds before it
    UNMAVRETH_CLONING_NOT_AGREED = 40, // for the IKE SA to clone
    UNMAVRETH_CANNOT_CLONE_NOW = 41,   // the IKE SA to clone is being deleted, or no place is free
    UNMAVRETH_PEER_AT_LIMIT = 42,      // the peer of the IKE SA to clone has 4 IKE records or more
    UNMAVRETH_OPERATOR_AT_SHARE = 43,  // the operator has 20 IKE records or more, or 80 IPsec records or more
    UNMAVRETH_NO_CLONE_REQUEST = 44    // no CLONE_IKE_SA is there
};

// The operators that share a gateway. Every call on the tables or the policies names one of them, and finds the records
// of this one alone. An octet above 1 is neither's: no call takes it, and a record that has it is nobody's.
enum unmavreth_operator { UNMAVRETH_OPERATOR_A = 0, UNMAVRETH_OPERATOR_B = 1 };

// What became of a request's update, and of its list of additional addresses.
enum unmavreth_update { UNMAVRETH_UPDATE_NONE = 0, UNMAVRETH_UPDATE_APPLIED = 1, UNMAVRETH_UPDATE_STALE = 2 };
enum unmavreth_list { UNMAVRETH_LIST_NONE = 0, UNMAVRETH_LIST_REPLACED = 1, UNMAVRETH_LIST_STALE = 2 };

// What a response comes to.
enum unmavreth_outcome {
    UNMAVRETH_OUTCOME_NONE = 0,         // with every number but 0
    UNMAVRETH_OUTCOME_CLOSE = 1,        // close the IKE SA: the cookie that was sent did not come back
    UNMAVRETH_OUTCOME_NAT_SEEN = 2,     // the first error is UNEXPECTED_NAT_DETECTED
    UNMAVRETH_OUTCOME_UNACCEPTABLE = 3, // the first error is UNACCEPTABLE_ADDRESSES
    UNMAVRETH_OUTCOME_FAILED = 4,       // the first error is another one (any other notify type below 16384)
    UNMAVRETH_OUTCOME_ACCEPTED = 5
};

// The limits, under the names that the definitions have (crates/octets/specs/Limits.antt).
enum unmavreth_limit {
    UNMAVRETH_BODY_MOST = 4096,    // the longest body that is read
    UNMAVRETH_IKE_PLACES = 32,     // IKE records
    UNMAVRETH_IPSEC_PLACES = 128,  // IPsec records; any other count of lent records is answered 1
    UNMAVRETH_OPERATORS = 2,       // that share the gateway, and policies
    UNMAVRETH_IKE_SHARE = 20,      // IKE records of one operator; it opens and clones none once there are as many
    UNMAVRETH_IPSEC_SHARE = 80,    // IPsec records of one operator; it opens none once there are as many
    UNMAVRETH_PEER_RECORDS_MOST = 4, // IKE records of one peer of an operator; none is cloned once there are as many
    UNMAVRETH_ADDRESSES_MOST = 16, // additional addresses that are kept, or written
    UNMAVRETH_RULES_MOST = 16,     // rules of a policy
    UNMAVRETH_ADDRESS_OCTETS = 16, // an address as it travels, of either family
    UNMAVRETH_IP4_OCTETS = 4,      // an address in a payload
    UNMAVRETH_IP6_OCTETS = 16,
    UNMAVRETH_PORT_SIZE = 2,       // a port in a payload
    UNMAVRETH_PAYLOAD_HEADER = 4,  // what stands before a payload's content
    UNMAVRETH_NOTIFY_HEADER = 8,   // what stands before a Notify's data, with no SPI
    UNMAVRETH_NAT_OCTETS = 20,     // a NAT detection value
    UNMAVRETH_COOKIE_LEAST = 8,    // a COOKIE2, if there is one, and the cookie of a check
    UNMAVRETH_COOKIE_MOST = 64,
    UNMAVRETH_NO_NATS_LEAST = 12,  // a NO_NATS_ALLOWED of IPv4: two addresses and two ports
    UNMAVRETH_NO_NATS_MOST = 36,   // of IPv6
    UNMAVRETH_RESPONSE_ROOM = 128, // the least output for a response: both NAT detections and a COOKIE2
    UNMAVRETH_REQUEST_ROOM = 564   // the least output for a request: all that can be asked for
};
#define UNMAVRETH_TALLY_MOST UINT32_MAX // where a record's tally of what is unknown stays

UNMAVRETH_ASSERT(UNMAVRETH_NO_NATS_LEAST == 2 * UNMAVRETH_IP4_OCTETS + 2 * UNMAVRETH_PORT_SIZE, "NO_NATS_LEAST");
UNMAVRETH_ASSERT(UNMAVRETH_NO_NATS_MOST == 2 * UNMAVRETH_IP6_OCTETS + 2 * UNMAVRETH_PORT_SIZE, "NO_NATS_MOST");
UNMAVRETH_ASSERT(UNMAVRETH_RESPONSE_ROOM == 2 * (UNMAVRETH_NOTIFY_HEADER + UNMAVRETH_NAT_OCTETS) +
                                                UNMAVRETH_NOTIFY_HEADER + UNMAVRETH_COOKIE_MOST,
                 "RESPONSE_ROOM");
UNMAVRETH_ASSERT(UNMAVRETH_REQUEST_ROOM ==
                     UNMAVRETH_NOTIFY_HEADER + UNMAVRETH_NOTIFY_HEADER + UNMAVRETH_NO_NATS_MOST +
                         2 * (UNMAVRETH_NOTIFY_HEADER + UNMAVRETH_NAT_OCTETS) +
                         UNMAVRETH_ADDRESSES_MOST * (UNMAVRETH_NOTIFY_HEADER + UNMAVRETH_IP6_OCTETS) +
                         UNMAVRETH_NOTIFY_HEADER + UNMAVRETH_COOKIE_MOST,
                 "REQUEST_ROOM");

// Payload types: 0 ends a chain, 41 is Notify; 33 to 48 other than 41 are known and skipped; any other is unknown. A
// payload is critical if the top bit of its flags is set.
enum unmavreth_payload {
    UNMAVRETH_NOTIFY_PAYLOAD = 41,
    UNMAVRETH_FIRST_KNOWN_PAYLOAD = 33,
    UNMAVRETH_LAST_KNOWN_PAYLOAD = 48,
    UNMAVRETH_CRITICAL_BIT = 128
};

// The notify types that are known here, with the octets of data that each has. Every other type is tallied as unknown.
enum unmavreth_notify {
    UNMAVRETH_NAT_DETECTION_SOURCE_IP = 16388,      // 20
    UNMAVRETH_NAT_DETECTION_DESTINATION_IP = 16389, // 20
    UNMAVRETH_MOBIKE_SUPPORTED = 16396,             // any, ignored
    UNMAVRETH_ADDITIONAL_IP4_ADDRESS = 16397,       // 4
    UNMAVRETH_ADDITIONAL_IP6_ADDRESS = 16398,       // 16
    UNMAVRETH_NO_ADDITIONAL_ADDRESSES = 16399,      // 0
    UNMAVRETH_UPDATE_SA_ADDRESSES = 16400,          // 0
    UNMAVRETH_COOKIE2 = 16401,                      // 8 to 64
    UNMAVRETH_NO_NATS_ALLOWED = 16402               // 12 (IPv4) or 36 (IPv6): source, destination, their ports
};

// Those of cloning (RFC 7791). They are known to unmavreth_clone alone, which asks that they have no data and no SPI:
// in every other chain they are tallied as unknown, whatever they have.
enum unmavreth_clone_notify {
    UNMAVRETH_CLONE_IKE_SA_SUPPORTED = 16432, // in IKE_AUTH, from both ends: the IKE SA may be cloned
    UNMAVRETH_CLONE_IKE_SA = 16433            // in a rekey of the IKE SA: the new one is a clone, and the old one stays
};

// The errors that a response may tell; types below 16384 are errors.
enum unmavreth_error {
    UNMAVRETH_UNSUPPORTED_CRITICAL_PAYLOAD = 1, // data: the payload's type
    UNMAVRETH_INVALID_SYNTAX = 7,
    UNMAVRETH_NO_ADDITIONAL_SAS = 35,
    UNMAVRETH_UNACCEPTABLE_ADDRESSES = 40,
    UNMAVRETH_UNEXPECTED_NAT_DETECTED = 41,
    UNMAVRETH_TEMPORARY_FAILURE = 43,
    UNMAVRETH_FIRST_STATUS = 16384 // the first notify type that is not an error
};

// --------------------------------------------------------------------------------------------------------- addresses

// An address: family 4 or 6, and its octets as in a packet; an IPv4 address has its 4 first and then 12 zeros.
typedef struct unmavreth_address {
    uint8_t family;
    uint8_t octets[UNMAVRETH_ADDRESS_OCTETS];
} unmavreth_address;
UNMAVRETH_SIZE(unmavreth_address, 17);
UNMAVRETH_AT(unmavreth_address, family, 0);
UNMAVRETH_AT(unmavreth_address, octets, 1);

typedef struct unmavreth_addresses_list {
    unmavreth_address list[UNMAVRETH_ADDRESSES_MOST];
} unmavreth_addresses_list;
UNMAVRETH_SIZE(unmavreth_addresses_list, 272);
UNMAVRETH_AT(unmavreth_addresses_list, list, 0);

// The addresses and ports of a packet from the peer: the source is the peer's. Ports are plain numbers, not in
// the octet order of the network.
typedef struct unmavreth_pair {
    uint8_t family;
    uint8_t source[UNMAVRETH_ADDRESS_OCTETS];
    uint8_t destination[UNMAVRETH_ADDRESS_OCTETS];
    uint16_t source_port;
    uint16_t destination_port;
} unmavreth_pair;
UNMAVRETH_SIZE(unmavreth_pair, 38);
UNMAVRETH_AT(unmavreth_pair, family, 0);
UNMAVRETH_AT(unmavreth_pair, source, 1);
UNMAVRETH_AT(unmavreth_pair, destination, 17);
UNMAVRETH_AT(unmavreth_pair, source_port, 34);
UNMAVRETH_AT(unmavreth_pair, destination_port, 36);

// ------------------------------------------------------------------------------------------------------------ policy

// Which pairs an update may move a record to. A rule matches a pair of its family whose source begins with the first
// source_len bits of `source`, and whose destination with the first destination_len bits of `destination`. Bits past
// a length are ignored; length 0 matches all. Lengths are at most 32 for IPv4 and 128 for IPv6.
typedef struct unmavreth_rule {
    uint8_t family;
    uint8_t source[UNMAVRETH_ADDRESS_OCTETS];
    uint8_t destination[UNMAVRETH_ADDRESS_OCTETS];
    uint8_t source_len;
    uint8_t destination_len;
} unmavreth_rule;
UNMAVRETH_SIZE(unmavreth_rule, 35);
UNMAVRETH_AT(unmavreth_rule, family, 0);
UNMAVRETH_AT(unmavreth_rule, source, 1);
UNMAVRETH_AT(unmavreth_rule, destination, 17);
UNMAVRETH_AT(unmavreth_rule, source_len, 33);
UNMAVRETH_AT(unmavreth_rule, destination_len, 34);

typedef struct unmavreth_rules {
    unmavreth_rule rules[UNMAVRETH_RULES_MOST];
} unmavreth_rules;
UNMAVRETH_SIZE(unmavreth_rules, 560);
UNMAVRETH_AT(unmavreth_rules, rules, 0);

// A policy: the first `count` rules; a count over 16 reads as 16. All zeros is the empty policy, to which nothing
// is acceptable.
typedef struct unmavreth_policy {
    uint16_t count;
    unmavreth_rule rules[UNMAVRETH_RULES_MOST];
} unmavreth_policy;
UNMAVRETH_SIZE(unmavreth_policy, 562);
UNMAVRETH_AT(unmavreth_policy, count, 0);
UNMAVRETH_AT(unmavreth_policy, rules, 2);

// The policies: each operator's own, as a struct so that the compiler checks that both are lent.
typedef struct unmavreth_policies {
    unmavreth_policy of[UNMAVRETH_OPERATORS]; // by enum unmavreth_operator
} unmavreth_policies;
UNMAVRETH_SIZE(unmavreth_policies, 1124);
UNMAVRETH_AT(unmavreth_policies, of, 0);

// Sets the whole policy of an operator, in place. Numbers, in the order of the checks, each over the whole list:
//   12  count is over 16
//    1  the operator is above 1, or one of the first `count` rules has a family other than 4 and 6, or an IPv4 prefix
//       with a tail that is not zero
//   12  one of them has a length over 32 (IPv4) or 128 (IPv6)
//    0  set: the first `count` rules as they were given, zeros in the places after them; the other operator's policy
//       stays as it was
// With 1 and 12 every field of both policies stays as it was. Rules past the count are not looked at.
UNMAVRETH_MUST_USE
uint8_t unmavreth_set_policy(unmavreth_policies *policies, uint16_t count, const unmavreth_rules *rules,
                             uint8_t operator_id);

// Whether some rule of the operator's policy matches the pair. A rule with a family or a length that is not allowed
// matches nothing. An operator above 1 has no rules: no pair is acceptable.
UNMAVRETH_MUST_USE
bool unmavreth_acceptable(const unmavreth_policies *policies, unmavreth_pair pair, uint8_t operator_id);

// ------------------------------------------------------------------------------------------------------------ tables

// What is agreed when an IKE record is opened, and with whom. Yes or no is an octet: 0 is no and every other value yes.
// An opening stores 0 or 1, and a clone has each field as its original has it; from then on no call changes it until
// the record is closed, whatever its value. What is `operator_id` here is `operator` in the definitions, which C++ has
// as a word of its own.
typedef struct unmavreth_agreed {
    uint8_t mobike;      // whether MOBIKE was agreed
    uint8_t cloning;     // whether both ends sent CLONE_IKE_SA_SUPPORTED
    uint8_t operator_id; // enum unmavreth_operator: whose IKE SA it is; the IPsec records that it owns are this one's
    uint32_t peer;       // the host's number for the peer, one for all IKE SAs of the operator with it; any, 0 too
} unmavreth_agreed;
UNMAVRETH_SIZE(unmavreth_agreed, 8);
UNMAVRETH_AT(unmavreth_agreed, mobike, 0);
UNMAVRETH_AT(unmavreth_agreed, cloning, 1);
UNMAVRETH_AT(unmavreth_agreed, operator_id, 2);
UNMAVRETH_AT(unmavreth_agreed, peer, 4);

// The return routability check (RFC 4555, 3.7) that is under way for an IKE record: the cookie of our request, zeros
// behind it, and our request's message ID. All zeros is none; a length outside 8 to 64, which no call stores, reads as
// none too.
typedef struct unmavreth_pending_check {
    uint8_t length;
    uint8_t octets[UNMAVRETH_COOKIE_MOST];
    uint32_t id;
} unmavreth_pending_check;
UNMAVRETH_SIZE(unmavreth_pending_check, 72);
UNMAVRETH_AT(unmavreth_pending_check, length, 0);
UNMAVRETH_AT(unmavreth_pending_check, octets, 1);
UNMAVRETH_AT(unmavreth_pending_check, id, 68);

// An IKE record. The place is free if its SPI is 0; all zeros is a free place. A mark that is a message ID is kept as
// the ID plus one, and no mark as 0: an ID exceeds the mark exactly if mark <= ID.
typedef struct unmavreth_ike {
    uint64_t spi;            // the gateway's own SPI of the IKE SA
    unmavreth_agreed agreed; // what it was opened with, or the original of a clone was
    unmavreth_pair pair;     // the addresses and ports in use
    uint64_t update_mark;    // of the newest update that was received
    uint64_t list_mark;      // of the newest list that was kept
    uint16_t count;          // how many additional addresses are kept
    unmavreth_address addresses[UNMAVRETH_ADDRESSES_MOST];
    uint32_t unknown; // unknown payloads and unknown notifications, counted; stays at UNMAVRETH_TALLY_MOST once there
    unmavreth_pending_check check; // of the update that was last applied, until a response ends it
    uint8_t deleting; // 0, or any other value from unmavreth_mark_deletion on until it is closed
} unmavreth_ike;
UNMAVRETH_SIZE(unmavreth_ike, 432);
UNMAVRETH_AT(unmavreth_ike, spi, 0);
UNMAVRETH_AT(unmavreth_ike, agreed, 8);
UNMAVRETH_AT(unmavreth_ike, pair, 16);
UNMAVRETH_AT(unmavreth_ike, update_mark, 56);
UNMAVRETH_AT(unmavreth_ike, list_mark, 64);
UNMAVRETH_AT(unmavreth_ike, count, 72);
UNMAVRETH_AT(unmavreth_ike, addresses, 74);
UNMAVRETH_AT(unmavreth_ike, unknown, 348);
UNMAVRETH_AT(unmavreth_ike, check, 352);
UNMAVRETH_AT(unmavreth_ike, deleting, 424);

// The table of IKE records: always 32, as a struct so that the compiler checks it.
typedef struct unmavreth_ike_table {
    unmavreth_ike records[UNMAVRETH_IKE_PLACES];
} unmavreth_ike_table;
UNMAVRETH_SIZE(unmavreth_ike_table, 13824);
UNMAVRETH_AT(unmavreth_ike_table, records, 0);

// An IPsec record. The place is free if its SPI is 0; all zeros is a free place.
typedef struct unmavreth_ipsec {
    uint32_t spi;   // the gateway's own SPI of the child SA, by which packets come in
    uint64_t owner; // the SPI of the IKE record that owns it
    unmavreth_pair pair;
} unmavreth_ipsec;
UNMAVRETH_SIZE(unmavreth_ipsec, 56);
UNMAVRETH_AT(unmavreth_ipsec, spi, 0);
UNMAVRETH_AT(unmavreth_ipsec, owner, 8);
UNMAVRETH_AT(unmavreth_ipsec, pair, 16);

// What is given to open an IKE record and its first IPsec record, the child SA that IKE_AUTH makes with it.
typedef struct unmavreth_opening {
    uint64_t spi;            // of the IKE record
    unmavreth_agreed agreed; // any values are allowed, but for an operator above 1
    unmavreth_pair pair;     // of both records
    uint32_t child;          // the SPI of the IPsec record, the gateway's own of the child SA
} unmavreth_opening;
UNMAVRETH_SIZE(unmavreth_opening, 64);
UNMAVRETH_AT(unmavreth_opening, spi, 0);
UNMAVRETH_AT(unmavreth_opening, agreed, 8);
UNMAVRETH_AT(unmavreth_opening, pair, 16);
UNMAVRETH_AT(unmavreth_opening, child, 56);

// The calls on the tables change them in place. The IPsec records are lent as a start and how many there are, which
// must be 128. The host begins with tables of zeros. If several places have an SPI, which no sequence of calls on
// tables of zeros brings about, the lowest is meant, whosever it is. With every number but 0 each of these five calls
// leaves every field of every place as it was.
//
// Both operators' records stand in the same tables. An IKE record is its operator's; an IPsec record is that of the IKE
// record with its owner's SPI, and nobody's if there is none, as no sequence of calls on tables of zeros brings about.
// To a call that names one operator a record of the other, or of nobody, is no record (4). An SPI that either has in
// use is in use (11). An operator's share is 20 of the 32 IKE records and 80 of the 128 IPsec records, of which every
// place in use counts: on tables that began as zeros, one that has under 12 IKE records and under 48 IPsec records is
// not refused for a share (43) or for want of a place (10, and 41 of a clone), whatever the other has.

// Opens an IKE record and its first IPsec record: both, each at the lowest free place of its table, or neither. The
// IKE record has no marks, no additional addresses, tally 0 and no check under way, and is not being deleted; the IPsec
// record has the owner `spi`. Numbers, in the order of the checks:
//    1  `records` is not 128, one of the SPIs is 0, the operator is above 1, the pair's family is not 4 or 6, or an
//       IPv4 address of the pair has a tail that is not zero
//   11  an IKE record of either operator has the SPI `spi`; then, an IPsec record has the SPI `child`
//   43  the operator has 20 IKE records or more; then, 80 IPsec records or more
//   10  no place is free for the IKE record; then, none for the IPsec record
//    0  both opened; no other place changes
// Neither the policy nor what else is agreed is asked whether they may be opened, nor how many records the peer has:
// the limit of a peer's records is one for clones.
UNMAVRETH_MUST_USE
uint8_t unmavreth_open(unmavreth_ike_table *ike, unmavreth_ipsec *ipsec, size_t records, unmavreth_opening opening);

// Opens a further IPsec record at the lowest free place, with the pair that the IKE record `owner` has, whether a check
// is under way or not. Numbers, in the order of the checks:
//    1  `records` is not 128, the SPI or the owner is 0, or the operator is above 1
//    4  no IKE record has the SPI `owner`, or the one that is meant is not the operator's
//   11  an IPsec record, of either operator or nobody, has this SPI
//   43  the operator has 80 IPsec records or more
//   10  no place is free
//    0  opened; no other place changes
UNMAVRETH_MUST_USE
uint8_t unmavreth_open_ipsec(const unmavreth_ike_table *ike, unmavreth_ipsec *ipsec, size_t records, uint32_t spi,
                             uint64_t owner, uint8_t operator_id);

// Closes an IKE record, and each IPsec record in use that it owns. Numbers, in the order of the checks:
//    1  `records` is not 128, the SPI is 0, or the operator is above 1
//    4  no IKE record has this SPI, or the one that is meant is not the operator's
//    0  closed: every field of these places is 0; no other place changes
UNMAVRETH_MUST_USE
uint8_t unmavreth_close_ike(unmavreth_ike_table *ike, unmavreth_ipsec *ipsec, size_t records, uint64_t spi,
                            uint8_t operator_id);

// Closes an IPsec record. The IKE records, which say whose it is, are only read. Numbers, in the order of the checks:
//    1  `records` is not 128, the SPI is 0, or the operator is above 1
//    4  no IPsec record has this SPI, or the one that is meant is not the operator's
//    0  closed: every field of its place is 0; no other place changes
UNMAVRETH_MUST_USE
uint8_t unmavreth_close_ipsec(const unmavreth_ike_table *ike, unmavreth_ipsec *ipsec, size_t records, uint32_t spi,
                              uint8_t operator_id);

// Marks an IKE record as being deleted, for a host that begins to delete the IKE SA; it closes the record once the SA
// is gone. A record with the mark is not cloned any more (unmavreth_clone); to all other calls it is as it was. Nothing
// but closing the record takes the mark away. Numbers, in the order of the checks:
//    1  the SPI is 0, or the operator is above 1
//    4  no IKE record has this SPI, or the one that is meant is not the operator's
//    0  marked, whether it was before or not: `deleting` of its place is 1; no other field of any place changes
UNMAVRETH_MUST_USE
uint8_t unmavreth_mark_deletion(unmavreth_ike_table *ike, uint64_t spi, uint8_t operator_id);

// --------------------------------------------------------------------------------------------------- reading a chain

// How many payloads a chain has, and how many of them are not known here.
typedef struct unmavreth_tally {
    uint16_t payloads;
    uint16_t unknown_payloads; // of an unknown type, not critical
    uint16_t unknown_notifies; // Notify payloads of an unknown notify type, errors included
    uint16_t errors;           // those of them whose notify type is below 16384
    uint16_t first_error;      // the notify type of the first error; 0 if `errors` is 0
} unmavreth_tally;
UNMAVRETH_SIZE(unmavreth_tally, 10);
UNMAVRETH_AT(unmavreth_tally, payloads, 0);
UNMAVRETH_AT(unmavreth_tally, unknown_payloads, 2);
UNMAVRETH_AT(unmavreth_tally, unknown_notifies, 4);
UNMAVRETH_AT(unmavreth_tally, errors, 6);
UNMAVRETH_AT(unmavreth_tally, first_error, 8);

// The additional addresses: all are counted; of the first sixteen, where their octets stand, and their families.
typedef struct unmavreth_offsets {
    uint16_t count;
    uint16_t offsets[UNMAVRETH_ADDRESSES_MOST];
    uint8_t families[UNMAVRETH_ADDRESSES_MOST];
} unmavreth_offsets;
UNMAVRETH_SIZE(unmavreth_offsets, 50);
UNMAVRETH_AT(unmavreth_offsets, count, 0);
UNMAVRETH_AT(unmavreth_offsets, offsets, 2);
UNMAVRETH_AT(unmavreth_offsets, families, 34);

// What a chain's payloads say. Data is told by the offset in the body at which it begins; 0 means that there is none.
typedef struct unmavreth_seen {
    unmavreth_tally tally;
    bool update;              // UPDATE_SA_ADDRESSES
    bool no_additional;       // NO_ADDITIONAL_ADDRESSES
    uint16_t nat_source;      // offset of the 20 octets of NAT_DETECTION_SOURCE_IP, of the first if there are several
    uint16_t nat_destination; // offset of the 20 octets of NAT_DETECTION_DESTINATION_IP
    uint16_t no_nats;         // offset of NO_NATS_ALLOWED
    uint16_t no_nats_len;     // 12 or 36
    uint16_t cookie;          // offset of COOKIE2
    uint16_t cookie_len;      // 8 to 64
    unmavreth_offsets list;
} unmavreth_seen;
UNMAVRETH_SIZE(unmavreth_seen, 74);
UNMAVRETH_AT(unmavreth_seen, tally, 0);
UNMAVRETH_AT(unmavreth_seen, update, 10);
UNMAVRETH_AT(unmavreth_seen, no_additional, 11);
UNMAVRETH_AT(unmavreth_seen, nat_source, 12);
UNMAVRETH_AT(unmavreth_seen, nat_destination, 14);
UNMAVRETH_AT(unmavreth_seen, no_nats, 16);
UNMAVRETH_AT(unmavreth_seen, no_nats_len, 18);
UNMAVRETH_AT(unmavreth_seen, cookie, 20);
UNMAVRETH_AT(unmavreth_seen, cookie_len, 22);
UNMAVRETH_AT(unmavreth_seen, list, 24);

typedef struct unmavreth_reading {
    uint8_t number;
    uint8_t critical; // with 7, the type of that payload, else 0
    uint16_t offset;  // with 61 to 65 and 7, where the payload (with 65 the first of the octets) begins, else 0
    uint16_t ordinal; // with 61 to 65 and 7, how many payloads stand before it, else 0
    unmavreth_seen seen;
} unmavreth_reading;
UNMAVRETH_SIZE(unmavreth_reading, 80);
UNMAVRETH_AT(unmavreth_reading, number, 0);
UNMAVRETH_AT(unmavreth_reading, critical, 1);
UNMAVRETH_AT(unmavreth_reading, offset, 2);
UNMAVRETH_AT(unmavreth_reading, ordinal, 4);
UNMAVRETH_AT(unmavreth_reading, seen, 6);

// Reads any octets as a chain of payloads, the first of type `first`. Numbers, in the order of the checks:
//    3  the body has over 4,096 octets
//   61  under 4 octets left where a payload is due; a length under 4 or past the end
//   62  a Notify under 8 octets, or with an SPI past its length; one of the notify types above with an SPI
//   63  one of the notify types above with data of another size
//   64  a second UPDATE_SA_ADDRESSES, NO_ADDITIONAL_ADDRESSES, COOKIE2, NO_NATS_ALLOWED or
//       NAT_DETECTION_DESTINATION_IP; NO_ADDITIONAL_ADDRESSES together with an address, told at the later
//   65  octets after the last payload
//    7  a payload of an unknown type with its critical bit
//         Of 61 to 65 and 7, whichever is at the smallest offset; at one payload the first in this order.
//    0  read whole: `seen` says what is in it
// With 3, 61 to 65 and 7 every field of `seen` is 0.
UNMAVRETH_MUST_USE
unmavreth_reading unmavreth_read(uint8_t first, const uint8_t *body, size_t body_size);

// A part of a body: where it starts and how many octets it has.
typedef struct unmavreth_part {
    const uint8_t *start;
    size_t octets;
} unmavreth_part;
UNMAVRETH_SIZE(unmavreth_part, 16);
UNMAVRETH_AT(unmavreth_part, start, 0);
UNMAVRETH_AT(unmavreth_part, octets, 8);

// What was seen is handed out by the four calls below, from the body that was read and the offsets that its reading
// tells. Any offset and length may be given: at offset 0, whatever the length, and where octets would run past the
// end, there is nothing.

// Hands out a cookie as a part of the body, by the offset and the length that a reading or a reply of this body told:
// *out becomes the `cookie_len` octets at body + cookie, in the body itself and not a copy, or an empty part that
// begins where the body does. On entry *out must hold some valid part, such as { body, 0 }. The part is of use for as
// long as the host leaves the body alone.
void unmavreth_cookie(unmavreth_part *out, const uint8_t *body, size_t body_size, uint16_t cookie,
                      uint16_t cookie_len);

// Hands out a NAT detection value in the same way, by the offset that a reading told (`nat_source`,
// `nat_destination`): its 20 octets, or an empty part.
void unmavreth_nat_value(unmavreth_part *out, const uint8_t *body, size_t body_size, uint16_t offset);

// What NO_NATS_ALLOWED holds: the `no_nats_len` octets at `no_nats`. Family 0 and zeros if there is none, or if these
// are not 12 or 36 octets within the body, which no reading tells.
UNMAVRETH_MUST_USE
unmavreth_pair unmavreth_no_nats(const uint8_t *body, size_t body_size, uint16_t no_nats, uint16_t no_nats_len);

// The first sixteen additional addresses. Places past the count are not looked at, and are given as zeros. An address
// of another family than 4 and 6, at offset 0, or that would run past the end of the body, is given as its family and
// zeros; no reading tells one.
UNMAVRETH_MUST_USE
unmavreth_addresses_list unmavreth_addresses(const uint8_t *body, size_t body_size, unmavreth_offsets list);

// ----------------------------------------------------------------------------------------------- answering a request

// All that handling a request gives back but the tables and the response's octets.
typedef struct unmavreth_reply {
    uint8_t number;
    uint8_t update;      // enum unmavreth_update; none with every number but 0
    uint8_t list;        // enum unmavreth_list; none with every number but 0
    uint8_t first;       // the type of the response's first payload: 41, or 0 if the response is empty
    uint16_t left_off;   // how many addresses of a list that was kept were over sixteen
    uint16_t payloads;   // of the request; 0 with 1 to 5, 61 to 65 and 7
    uint16_t offset;     // as in unmavreth_reading
    uint16_t ordinal;    // likewise
    uint16_t cookie;     // offset of the request's COOKIE2; 0 if there is none, and with 1 to 5, 61 to 65 and 7
    uint16_t cookie_len; // its length, 0 likewise
    uint16_t length;     // octets of the response
} unmavreth_reply;
UNMAVRETH_SIZE(unmavreth_reply, 18);
UNMAVRETH_AT(unmavreth_reply, number, 0);
UNMAVRETH_AT(unmavreth_reply, update, 1);
UNMAVRETH_AT(unmavreth_reply, list, 2);
UNMAVRETH_AT(unmavreth_reply, first, 3);
UNMAVRETH_AT(unmavreth_reply, left_off, 4);
UNMAVRETH_AT(unmavreth_reply, payloads, 6);
UNMAVRETH_AT(unmavreth_reply, offset, 8);
UNMAVRETH_AT(unmavreth_reply, ordinal, 10);
UNMAVRETH_AT(unmavreth_reply, cookie, 12);
UNMAVRETH_AT(unmavreth_reply, cookie_len, 14);
UNMAVRETH_AT(unmavreth_reply, length, 16);

// Handles one decrypted INFORMATIONAL request for an IKE SA of which our end is the original responder.
//   spi, id                      the gateway's SPI of the IKE SA, and the request's message ID
//   pair                         the addresses and ports of the packet that brought the request
//   nat_source, nat_destination  the gateway's two NAT detection values for the response; lent with every request
//   cookie, check_id             for the return routability check that an applied update asks for: the cookie, and the
//                                message ID that the gateway's next request of this IKE SA has; lent with every request
//   first, body                  the decrypted payload chain
//   out                          where the response goes
//   operator_id                  whose the IKE SA is; its policy is the one that an update is held to
// What is lent has its size behind it.
// Numbers, in the order of the checks, and what each leaves of the tables and of the output:
//    1  `records` is not 128, the SPI is 0, a NAT detection value has not 20 octets, the cookie has not 8 to 64 octets
//       (with an update or without), the pair's family is not 4 or 6, an IPv4 address of the pair has a tail that is
//       not zero, or the operator is above 1
//    2  the output has under 128 octets, however short the response would be
//    3  the body has over 4,096 octets
//    4  no IKE record has this SPI, or the one that is meant is not the operator's
//    5  MOBIKE was not agreed for it
//         With 1 to 5 every field of every place and every octet of the output stay as they were; `length` is 0. The
//         host answers the request itself: with 4 and 5 as one that has no MOBIKE does, by an empty response if there
//         is nothing else in it; with 3 by INVALID_SYNTAX; with 1 and 2 the call was wrong, and can be made again.
//   61 to 65  malformed               } as in unmavreth_read
//    7  an unknown critical payload   }
//         With these every field of every place stays as it was. The response is INVALID_SYNTAX, or with 7
//         UNSUPPORTED_CRITICAL_PAYLOAD with the payload's type; no COOKIE2.
//    8  a new update (its ID exceeds the update mark) whose NO_NATS_ALLOWED is not the packet's addresses and ports
//    9  a new update, and no rule of the operator's policy matches the packet's pair
//         With 8 and 9 that IKE record's unknown tally grows as with 0 and its update mark becomes the ID, so that an
//         older update is stale from now on; no other field of any place changes. The response is
//         UNEXPECTED_NAT_DETECTED or UNACCEPTABLE_ADDRESSES, then the request's COOKIE2 if it had one. strongSwan's
//         client ignores UNACCEPTABLE_ADDRESSES and goes on using the refused address: a host may want to delete the
//         SA.
//    0  done. That IKE record's tally grows by the unknown payloads and the unknown notifications. Then, by `update`:
//         applied   its update mark becomes the ID, its pair the packet's, and its check the cookie and the ID that
//                   were lent, in place of one that was under way; no IPsec record moves yet. The host now sends the
//                   check, a request with this ID that has this cookie as COOKIE2 (unmavreth_write), by the new pair,
//                   and hands the response to unmavreth_check
//         stale     the ID does not exceed the update mark: the update has no effect, and a check goes on
//       and by `list`:
//         replaced  its additional addresses become the request's first sixteen (none, with NO_ADDITIONAL_ADDRESSES),
//                   zeros in the places after them; its list mark becomes the ID
//         stale     the ID does not exceed the list mark: the list has no effect
//       No other field of any place changes. The response is, for a request with both kinds of NAT detection, the two
//       lent values, source first, with an update (applied or stale) or without; then the request's COOKIE2 if it had
//       one; it may be empty. One kind alone gets no value.
// The response stands at the start of the output; octets past its `length` stay as they were.
UNMAVRETH_MUST_USE
unmavreth_reply unmavreth_handle(unmavreth_ike_table *ike, const unmavreth_ipsec *ipsec, size_t records,
                                 const unmavreth_policies *policies, uint64_t spi, uint32_t id, unmavreth_pair pair,
                                 const uint8_t *nat_source, size_t nat_source_size, const uint8_t *nat_destination,
                                 size_t nat_destination_size, const uint8_t *cookie, size_t cookie_size,
                                 uint32_t check_id, uint8_t first, const uint8_t *body, size_t body_size, uint8_t *out,
                                 size_t out_size, uint8_t operator_id);

// ------------------------------------------------------------------------------------- the return routability check

// All that a response gives back.
typedef struct unmavreth_assessment {
    uint8_t number;
    uint8_t outcome;   // enum unmavreth_outcome; 0 with every number but 0
    uint16_t payloads; // of the response; 0 with every number but 0
    uint16_t offset;   // as in unmavreth_reading
    uint16_t ordinal;  // likewise
    uint32_t tally;    // what was unknown in it: a cookie that was not sent too, errors not; 0 with every number but 0
    uint16_t cookie;   // where the data of the response's COOKIE2 begins; 0: none, as with every number but 0
    uint16_t cookie_len;
} unmavreth_assessment;
UNMAVRETH_SIZE(unmavreth_assessment, 16);
UNMAVRETH_AT(unmavreth_assessment, number, 0);
UNMAVRETH_AT(unmavreth_assessment, outcome, 1);
UNMAVRETH_AT(unmavreth_assessment, payloads, 2);
UNMAVRETH_AT(unmavreth_assessment, offset, 4);
UNMAVRETH_AT(unmavreth_assessment, ordinal, 6);
UNMAVRETH_AT(unmavreth_assessment, tally, 8);
UNMAVRETH_AT(unmavreth_assessment, cookie, 12);
UNMAVRETH_AT(unmavreth_assessment, cookie_len, 14);

// Decides the response to a return routability check of ours (RFC 4555, 3.7). It is assessed as by unmavreth_assess,
// with the cookie that the IKE record keeps: the host remembers nothing of the check itself.
//   spi, id      the gateway's SPI of the IKE SA, and the message ID of the response, which is that of our request
//   first, body  the decrypted payload chain
//   operator_id  whose the IKE SA is
// Numbers, in the order of the checks:
//    1  `records` is not 128, the SPI is 0, or the operator is above 1
//    3  the body has over 4,096 octets
//    4  no IKE record has this SPI, or the one that is meant is not the operator's
//    5  MOBIKE was not agreed for it
//   14  it has no check under way, or one by a request of ours with another ID: a later update was applied meanwhile,
//       or the check has ended
//   61 to 65  malformed               } as in unmavreth_read
//    7  an unknown critical payload   }
//         With every number but 0 every field of every place stays as it was, and a check that is under way goes on.
//    0  read whole, which ends the check. By `outcome`:
//         close     the IKE record and each IPsec record in use that it owns are closed, as by unmavreth_close_ike;
//                   the host is to delete the IKE SA
//         NAT seen, unacceptable, failed
//                   nothing moves: the IPsec records keep the pairs that they have, the IKE record its own
//         accepted  each IPsec record in use that the IKE record owns takes the pair that the IKE record has now
//       No other field of any place changes; the tally is told, and not added to the record's.
UNMAVRETH_MUST_USE
unmavreth_assessment unmavreth_check(unmavreth_ike_table *ike, unmavreth_ipsec *ipsec, size_t records, uint64_t spi,
                                     uint32_t id, uint8_t first, const uint8_t *body, size_t body_size,
                                     uint8_t operator_id);

// ------------------------------------------------------------------------------------------------ cloning an IKE SA

// All that a request to clone gives back but the table and the response's octets.
typedef struct unmavreth_clone_reply {
    uint8_t number;
    uint8_t first;     // the type of the response's first payload: 41, or 0 if nothing is written
    uint16_t payloads; // of the request, with 0, 44, 41, 42, 11 and 43; else 0
    uint16_t offset;   // as in unmavreth_reading
    uint16_t ordinal;  // likewise
    uint16_t length;   // octets of the response
} unmavreth_clone_reply;
UNMAVRETH_SIZE(unmavreth_clone_reply, 10);
UNMAVRETH_AT(unmavreth_clone_reply, number, 0);
UNMAVRETH_AT(unmavreth_clone_reply, first, 1);
UNMAVRETH_AT(unmavreth_clone_reply, payloads, 2);
UNMAVRETH_AT(unmavreth_clone_reply, offset, 4);
UNMAVRETH_AT(unmavreth_clone_reply, ordinal, 6);
UNMAVRETH_AT(unmavreth_clone_reply, length, 8);

// Decides a request to clone an IKE SA (RFC 7791) of which our end is the original responder: a decrypted
// CREATE_CHILD_SA request that rekeys the IKE SA. Whether it does, the host sees by its SA payload; a request for a
// child SA is not given here.
//   spi          the gateway's SPI of the IKE SA that the request came in, the original
//   new_spi      the SPI that the gateway draws for the new IKE SA
//   first, body  the decrypted payload chain; SA, nonce and key exchange in it are skipped, and are the host's to read
//   out          where the response goes
//   operator_id  whose the IKE SA is, and the clone
// It is read as by unmavreth_read, but for CLONE_IKE_SA and CLONE_IKE_SA_SUPPORTED, which are known here: with an SPI
// either is 62 and with data 63, and a second one is no fault. What else is in it has no effect, and no tally grows.
// Numbers, in the order of the checks, and what each leaves of the output:
//    1  one of the SPIs is 0, or the operator is above 1
//    2  the output has under 128 octets, however short the response would be
//    3  the body has over 4,096 octets
//    4  no IKE record has the SPI `spi`, or the one that is meant is not the operator's
//   40  cloning was not agreed for it
//         With 1 to 4 and 40 every octet of the output stays as it was; `length` is 0. The host answers the request
//         itself: with 40 as one that has no cloning does, which ignores CLONE_IKE_SA; with 4 likewise, or, if both
//         ends agreed on cloning, by TEMPORARY_FAILURE; with 3 by INVALID_SYNTAX; with 1 and 2 the call was wrong, and
//         can be made again.
//   61 to 65  malformed               } as in unmavreth_read
//    7  an unknown critical payload   }
//         The response is INVALID_SYNTAX, or with 7 UNSUPPORTED_CRITICAL_PAYLOAD with the payload's type.
//   44  no CLONE_IKE_SA is there: it is a plain rekey, in which this call has no part
//         Every octet of the output stays as it was; `length` is 0.
//   41  the original is being deleted (unmavreth_mark_deletion), or no place is free: the response is
//       TEMPORARY_FAILURE, and the client may try again later
//   42  four IKE records or more of the operator have the original's peer number, itself and those being deleted among
//       them: the response is NO_ADDITIONAL_SAS, and the client is not to try again until one of its IKE SAs is gone
//   11  an IKE record of either operator has the SPI `new_spi`: the host draws another one, and makes the call again
//         Every octet of the output stays as it was; `length` is 0.
//   43  the operator has 20 IKE records or more, clones among them: the response is NO_ADDITIONAL_SAS
//    0  cloned. The lowest free place has the SPI `new_spi`, and of the original the pair and what is agreed, the peer
//       number and the operator among it, each field as it stands there. It has no marks, no additional addresses,
//       tally 0 and no check under way, and is not being deleted. No IPsec record changes: those of the original stay
//       with it, and the clone's own are opened as child SAs are made (unmavreth_open_ipsec). The response is
//       CLONE_IKE_SA. The host now goes on with the key exchange of the rekey, and sends its SA, nonce and key
//       exchange with the response: RFC 7791 has no notification there and says that this one is ignored, so that a
//       host may leave it off. The original is not deleted. If the key exchange fails, the host closes the clone
//       (unmavreth_close_ike).
// With every number but 0 every field of every place stays as it was, and with 0 that of every place but the clone's.
// The response stands at the start of the output; octets past its `length` stay as they were.
UNMAVRETH_MUST_USE
unmavreth_clone_reply unmavreth_clone(unmavreth_ike_table *ike, uint64_t spi, uint64_t new_spi, uint8_t first,
                                      const uint8_t *body, size_t body_size, uint8_t *out, size_t out_size,
                                      uint8_t operator_id);

// ----------------------------------------------------------------------------------------------- the initiator's end

// What a request is to carry; of each yes or no, 0 is no and any other value yes. Both kinds of NAT detection are asked
// for, or neither. Each of the last two is asked for alone: with nothing else here, and no cookie.
typedef struct unmavreth_ask {
    uint8_t update;          // UPDATE_SA_ADDRESSES
    uint8_t no_nats;         // NO_NATS_ALLOWED with `pair`
    uint8_t nat_source;      // NAT_DETECTION_SOURCE_IP with the value of that name
    uint8_t nat_destination; // NAT_DETECTION_DESTINATION_IP with the value of that name
    uint8_t no_additional;   // NO_ADDITIONAL_ADDRESSES
    uint16_t count;          // how many of `addresses`; 0 without no_additional says nothing about them
    uint8_t clone_supported; // CLONE_IKE_SA_SUPPORTED, for IKE_AUTH
    uint8_t clone;           // CLONE_IKE_SA, for a rekey of the IKE SA
} unmavreth_ask;
UNMAVRETH_SIZE(unmavreth_ask, 10);
UNMAVRETH_AT(unmavreth_ask, update, 0);
UNMAVRETH_AT(unmavreth_ask, no_nats, 1);
UNMAVRETH_AT(unmavreth_ask, nat_source, 2);
UNMAVRETH_AT(unmavreth_ask, nat_destination, 3);
UNMAVRETH_AT(unmavreth_ask, no_additional, 4);
UNMAVRETH_AT(unmavreth_ask, count, 6);
UNMAVRETH_AT(unmavreth_ask, clone_supported, 8);
UNMAVRETH_AT(unmavreth_ask, clone, 9);

typedef struct unmavreth_written {
    uint8_t number;
    uint8_t first;   // the type of the first payload: 41, or 0 if nothing was written
    uint16_t length; // octets written
} unmavreth_written;
UNMAVRETH_SIZE(unmavreth_written, 4);
UNMAVRETH_AT(unmavreth_written, number, 0);
UNMAVRETH_AT(unmavreth_written, first, 1);
UNMAVRETH_AT(unmavreth_written, length, 2);

// Writes a request, those asked for in this order: update, NO_NATS_ALLOWED, NAT source, NAT destination,
// NO_ADDITIONAL_ADDRESSES or the addresses, COOKIE2 (asked for by a cookie of other than 0 octets). Or it writes
// CLONE_IKE_SA_SUPPORTED alone or CLONE_IKE_SA alone, which the host puts into its own IKE_AUTH or CREATE_CHILD_SA
// request. What is not asked for, and addresses past the count, are not looked at. Numbers, in the order of the checks:
//    1  count is over 16, or not 0 with no_additional; one NAT kind alone, or a NAT value that is asked for has not
//       20 octets; the pair or an address that is asked for has a family other than 4 and 6, or an IPv4 tail that is
//       not zero; the cookie has not 0 or 8 to 64 octets; clone_supported or clone with anything else that is asked
//       for, the other of the two, a count or a cookie among it
//    2  the output has under 564 octets, however short the request would be
//    0  written to the start of the output; octets past `length` stay as they were
// With 1 and 2 every octet of the output stays as it was; `first` and `length` are 0.
//
// A request for everything has 21 Notify payloads. strongSwan 5.9.8 refuses a message with more than 20 and destroys
// the IKE SA: where the peer may be one, ask for at most 15 addresses with all else.
UNMAVRETH_MUST_USE
unmavreth_written unmavreth_write(unmavreth_ask ask, unmavreth_pair pair, unmavreth_addresses_list addresses,
                                  const uint8_t *nat_source, size_t nat_source_size, const uint8_t *nat_destination,
                                  size_t nat_destination_size, const uint8_t *cookie, size_t cookie_size,
                                  uint8_t *out, size_t out_size);

// Says what the response to a request comes to; `sent` is the cookie of that request, 0 octets if it had none.
// Numbers, in the order of the checks:
//    1  `sent` has not 0 or 8 to 64 octets
//    3  the body has over 4,096 octets
//   61 to 65  malformed               } as in unmavreth_read
//    7  an unknown critical payload   }
//    0  read whole. The outcome is the first of these that holds: close (a cookie was sent, and another one came
//       back, or none and no error either); the first error as NAT seen, unacceptable or failed; accepted.
UNMAVRETH_MUST_USE
unmavreth_assessment unmavreth_assess(const uint8_t *sent, size_t sent_size, uint8_t first, const uint8_t *body,
                                      size_t body_size);

// ------------------------------------------------------------------------------------------------------------ traces

// A trace is the calls that were made on a gateway, as octets, one entry behind the other (docs/TRACE.md). The two
// calls below read and write one entry. What it says stands in slots, in the order of its fields: a number in one; an
// address in one, its offset in a lent buffer; a string in two, its offset there and its length; a list in one for its
// count and then those of sixteen items, however many it has. Of an entry that was read the buffer is the trace itself.
enum unmavreth_kind {
    UNMAVRETH_KIND_OPEN_BOTH = 0,   // unmavreth_open
    UNMAVRETH_KIND_ADD_IPSEC = 1,   // unmavreth_open_ipsec
    UNMAVRETH_KIND_CLOSE_IKE = 2,   // unmavreth_close_ike
    UNMAVRETH_KIND_CLOSE_IPSEC = 3, // unmavreth_close_ipsec
    UNMAVRETH_KIND_REQUEST = 4,     // unmavreth_handle
    UNMAVRETH_KIND_POLICY = 5,      // unmavreth_set_policy
    UNMAVRETH_KIND_CHECK_RESPONSE = 6, // unmavreth_check
    UNMAVRETH_KIND_CLONE = 7,          // unmavreth_clone
    UNMAVRETH_KIND_MARK_DELETION = 8   // unmavreth_mark_deletion
};

enum unmavreth_entry_limit {
    UNMAVRETH_ENTRY_SLOTS = 82,   // as many as the widest kind has, a policy
    UNMAVRETH_STRING_MOST = 4096, // the longest string of an entry
    UNMAVRETH_ENTRY_MOST = 16456  // octets of the longest entry, a request with four such strings
};

// The slots of each kind. Those of a pair and of a rule stand behind the one at which it begins, such as
// slots[UNMAVRETH_OPEN_PAIR + UNMAVRETH_PAIR_SOURCE].
enum unmavreth_slot {
    UNMAVRETH_PAIR_FAMILY = 0,
    UNMAVRETH_PAIR_SOURCE = 1,      // an offset
    UNMAVRETH_PAIR_DESTINATION = 2, // an offset
    UNMAVRETH_PAIR_SOURCE_PORT = 3,
    UNMAVRETH_PAIR_DESTINATION_PORT = 4,
    UNMAVRETH_PAIR_SLOTS = 5, // how many a pair has

    UNMAVRETH_RULE_FAMILY = 0,
    UNMAVRETH_RULE_SOURCE = 1,      // an offset
    UNMAVRETH_RULE_DESTINATION = 2, // an offset
    UNMAVRETH_RULE_SOURCE_LEN = 3,
    UNMAVRETH_RULE_DESTINATION_LEN = 4,
    UNMAVRETH_RULE_SLOTS = 5, // how many a rule has

    UNMAVRETH_OPEN_SPI = 0,
    UNMAVRETH_OPEN_AGREED = 1, // 0 or 1
    UNMAVRETH_OPEN_PAIR = 2,   // where the pair begins
    UNMAVRETH_OPEN_CHILD = 7,
    UNMAVRETH_OPEN_PEER = 8,
    UNMAVRETH_OPEN_CLONING = 9, // 0 or 1
    UNMAVRETH_OPEN_OPERATOR = 10, // 0 or 1, as of every kind

    UNMAVRETH_ADD_SPI = 0,
    UNMAVRETH_ADD_OWNER = 1,
    UNMAVRETH_ADD_OPERATOR = 2,

    UNMAVRETH_CLOSE_IKE_SPI = 0,
    UNMAVRETH_CLOSE_IKE_OPERATOR = 1,

    UNMAVRETH_CLOSE_IPSEC_SPI = 0,
    UNMAVRETH_CLOSE_IPSEC_OPERATOR = 1,

    UNMAVRETH_REQUEST_SPI = 0,
    UNMAVRETH_REQUEST_ID = 1,
    UNMAVRETH_REQUEST_PAIR = 2,       // where the pair begins
    UNMAVRETH_REQUEST_NAT_SOURCE = 7, // an offset
    UNMAVRETH_REQUEST_NAT_SOURCE_SIZE = 8,
    UNMAVRETH_REQUEST_NAT_DESTINATION = 9, // an offset
    UNMAVRETH_REQUEST_NAT_DESTINATION_SIZE = 10,
    UNMAVRETH_REQUEST_FIRST = 11,
    UNMAVRETH_REQUEST_BODY = 12, // an offset
    UNMAVRETH_REQUEST_BODY_SIZE = 13,
    UNMAVRETH_REQUEST_COOKIE = 14, // an offset
    UNMAVRETH_REQUEST_COOKIE_SIZE = 15,
    UNMAVRETH_REQUEST_CHECK_ID = 16,
    UNMAVRETH_REQUEST_OPERATOR = 17,

    UNMAVRETH_POLICY_COUNT = 0,
    UNMAVRETH_POLICY_RULES = 1, // where the first rule begins
    UNMAVRETH_POLICY_OPERATOR = 81, // behind all sixteen rules, whatever the count

    UNMAVRETH_CHECK_RESPONSE_SPI = 0,
    UNMAVRETH_CHECK_RESPONSE_ID = 1,
    UNMAVRETH_CHECK_RESPONSE_FIRST = 2,
    UNMAVRETH_CHECK_RESPONSE_BODY = 3, // an offset
    UNMAVRETH_CHECK_RESPONSE_BODY_SIZE = 4,
    UNMAVRETH_CHECK_RESPONSE_OPERATOR = 5,

    UNMAVRETH_CLONE_SPI = 0,
    UNMAVRETH_CLONE_NEW_SPI = 1,
    UNMAVRETH_CLONE_FIRST = 2,
    UNMAVRETH_CLONE_BODY = 3, // an offset
    UNMAVRETH_CLONE_BODY_SIZE = 4,
    UNMAVRETH_CLONE_OPERATOR = 5,

    UNMAVRETH_MARK_DELETION_SPI = 0,
    UNMAVRETH_MARK_DELETION_OPERATOR = 1
};

// Where the rule of this ordinal, from 0, begins in the slots of a policy.
#define UNMAVRETH_POLICY_RULE(ordinal) (UNMAVRETH_POLICY_RULES + (ordinal) * UNMAVRETH_RULE_SLOTS)

UNMAVRETH_ASSERT((size_t)UNMAVRETH_POLICY_OPERATOR == UNMAVRETH_POLICY_RULE((size_t)UNMAVRETH_RULES_MOST),
                 "POLICY_OPERATOR");
UNMAVRETH_ASSERT((size_t)UNMAVRETH_ENTRY_SLOTS == (size_t)UNMAVRETH_POLICY_OPERATOR + 1, "ENTRY_SLOTS");
// Seven bits an octet: 10 octets for 64 bits, 5 for 32, 3 for 16, 2 for 8 and for a string's length, 1 for 1.
UNMAVRETH_ASSERT(UNMAVRETH_ENTRY_MOST == 1 + 10 + 5 + (2 + 2 * UNMAVRETH_ADDRESS_OCTETS + 2 * 3) +
                                             4 * (2 + UNMAVRETH_STRING_MOST) + 2 + 5 + 1,
                 "ENTRY_MOST");

typedef struct unmavreth_entry_read {
    uint8_t number;
    uint8_t kind;                          // enum unmavreth_kind
    size_t next;                           // the offset of the first octet behind it
    uint64_t slots[UNMAVRETH_ENTRY_SLOTS]; // those of its kind; an offset is one in the trace
} unmavreth_entry_read;
UNMAVRETH_SIZE(unmavreth_entry_read, 672);
UNMAVRETH_AT(unmavreth_entry_read, number, 0);
UNMAVRETH_AT(unmavreth_entry_read, kind, 1);
UNMAVRETH_AT(unmavreth_entry_read, next, 8);
UNMAVRETH_AT(unmavreth_entry_read, slots, 16);

// Reads the entry that begins at the offset `at` of the trace. The end of a trace is for the host to see: there, and
// past it, the answer is 20. Numbers, the first that is met as the octets are read:
//   20  the octets end within the entry, or a number is not in its shortest form or past 64 bits
//   21  no kind has this number
//   22  a number, a count or a length is too large for its field; told before a string or an item is looked for
//    0  read: every value fits its field, and addresses and strings lie within the trace; slots that its kind does not
//       have, and those of a list's items past its count, are 0
// With 20, 21 and 22 every other field is 0.
UNMAVRETH_MUST_USE
unmavreth_entry_read unmavreth_read_entry(const uint8_t *trace, size_t trace_size, size_t at);

typedef struct unmavreth_entry_written {
    uint8_t number;
    size_t length; // octets written
} unmavreth_entry_written;
UNMAVRETH_SIZE(unmavreth_entry_written, 16);
UNMAVRETH_AT(unmavreth_entry_written, number, 0);
UNMAVRETH_AT(unmavreth_entry_written, length, 8);

// Writes an entry; offsets in its slots are those of `source`. Slots that the kind does not have, and those of a list's
// items past its count, are not looked at. Numbers, in the order of the checks:
//   21  no kind has this number
//   22  a number, a count or a length is too large for its field, or an address or a string, an empty one too, is not
//       within `source`
//    2  the output is shorter than the entry
//    0  written to the start of the output; octets past `length` stay as they were
// With 21, 22 and 2 every octet of the output stays as it was; `length` is 0. What is written reads back as it was
// given, and UNMAVRETH_ENTRY_MOST octets are room enough for any entry.
UNMAVRETH_MUST_USE
unmavreth_entry_written unmavreth_write_entry(uint8_t kind, const uint64_t slots[UNMAVRETH_ENTRY_SLOTS],
                                              const uint8_t *source, size_t source_size, uint8_t *out,
                                              size_t out_size);

// --------------------------------------------------------------------------------------------------------- redirects

// A gateway moves its clients to another one, as for maintenance, by three notifications (RFC 5685). The calls below
// read and write their data, what stands behind the Notify header; the notification around it, and the chain, are the
// host's. In a chain that unmavreth_read, unmavreth_handle and unmavreth_assess are given, each of the three is tallied
// as unknown.
enum unmavreth_redirect_notify {
    UNMAVRETH_REDIRECT_SUPPORTED = 16406, // no data: the client can be redirected
    UNMAVRETH_REDIRECT = 16407,           // the gateway to go to, and in IKE_SA_INIT the nonce that the client sent
    UNMAVRETH_REDIRECTED_FROM = 16408     // the gateway that the client comes from
};

// By what a gateway is named.
enum unmavreth_identity {
    UNMAVRETH_IP4_IDENTITY = 1, // 4 octets
    UNMAVRETH_IP6_IDENTITY = 2, // 16
    UNMAVRETH_FQDN_IDENTITY = 3 // 1 to 255, whatever they are; in a REDIRECT only
};

// The message that a REDIRECT came in. A sole IKE_AUTH response is the first or the last, no matter which.
enum unmavreth_exchange {
    UNMAVRETH_SA_INIT = 0,     // the IKE_SA_INIT response
    UNMAVRETH_FIRST_AUTH = 1,  // the first IKE_AUTH response
    UNMAVRETH_MIDDLE_AUTH = 2, // one between
    UNMAVRETH_LAST_AUTH = 3,   // the last IKE_AUTH response
    UNMAVRETH_INFORMATIONAL = 4
};

// The limits, under the names that the definitions have (crates/redirect/specs/Wire.antt,
// crates/redirecting/specs/Limits.antt).
enum unmavreth_redirect_limit {
    UNMAVRETH_IDENTITY_HEADER = 2, // what stands before an identity: its type and its size
    UNMAVRETH_FQDN_LEAST = 1,
    UNMAVRETH_FQDN_MOST = 255,
    UNMAVRETH_NONCE_LEAST = 16,
    UNMAVRETH_NONCE_MOST = 256,
    UNMAVRETH_REDIRECT_ROOM = 513,  // the least output for the data of any of the three
    UNMAVRETH_REDIRECTS_MOST = 5,   // how many are accepted within a period
    UNMAVRETH_PERIOD_SECONDS = 300
};
UNMAVRETH_ASSERT(UNMAVRETH_REDIRECT_ROOM == UNMAVRETH_IDENTITY_HEADER + UNMAVRETH_FQDN_MOST + UNMAVRETH_NONCE_MOST,
                 "REDIRECT_ROOM");

typedef struct unmavreth_gateway_read {
    uint8_t number;
    uint8_t identity_type; // enum unmavreth_identity; 0 with every number but 0
} unmavreth_gateway_read;
UNMAVRETH_SIZE(unmavreth_gateway_read, 2);
UNMAVRETH_AT(unmavreth_gateway_read, number, 0);
UNMAVRETH_AT(unmavreth_gateway_read, identity_type, 1);

// Reads the data of a REDIRECT, at the client: of an IKE_SA_INIT response, of the first or the last IKE_AUTH response,
// or of an INFORMATIONAL request of the gateway. To `identity` and `nonce`, which hold some valid part before (such as
// {data, 0}), it hands out the identity of the gateway to go to and the nonce, as parts of the data; `nonce` is empty
// if there is none. Whether the client may go there is unmavreth_decide_redirect's to say. Numbers:
//   30  the data ends before its identity does, or the identity has a type or a size that is not allowed
//    0  read. What stands behind the identity is the nonce, of whatever size
// With 30 both parts are empty.
UNMAVRETH_MUST_USE
unmavreth_gateway_read unmavreth_read_redirect(unmavreth_part *identity, unmavreth_part *nonce, const uint8_t *data,
                                               size_t data_size);

// Reads the data of a REDIRECTED_FROM, at the gateway that a client was moved to: of an IKE_SA_INIT request. To
// `identity` it hands out, likewise, the identity of the gateway that the client comes from. Numbers:
//   30  as above; or the identity is a name; or something stands behind it
//    0  read
// With 30 the part is empty.
UNMAVRETH_MUST_USE
unmavreth_gateway_read unmavreth_read_redirected_from(unmavreth_part *identity, const uint8_t *data, size_t data_size);

// Reads the data of a REDIRECT_SUPPORTED, at the gateway: of a client's IKE_SA_INIT request. Numbers:
//   30  it has data
//    0  it has none
UNMAVRETH_MUST_USE
uint8_t unmavreth_read_redirect_supported(const uint8_t *data, size_t data_size);

typedef struct unmavreth_data_written {
    uint8_t number;
    size_t length; // octets written
} unmavreth_data_written;
UNMAVRETH_SIZE(unmavreth_data_written, 16);
UNMAVRETH_AT(unmavreth_data_written, number, 0);
UNMAVRETH_AT(unmavreth_data_written, length, 8);

// Writes the data of a REDIRECT, at the gateway: for an IKE_SA_INIT response with the nonce of the client's request;
// for the first or the last IKE_AUTH response, or for an INFORMATIONAL request, with a nonce of 0 octets, which is
// none.
// Numbers, in the order of the checks:
//    2  the output has under 513 octets, however short the data would be
//   30  the identity has a type or a size that is not allowed, or the nonce has not 0 or 16 to 256 octets
//    0  written to the start of the output; octets past `length` stay as they were
// With 2 and 30 every octet of the output stays as it was; `length` is 0.
UNMAVRETH_MUST_USE
unmavreth_data_written unmavreth_write_redirect(uint8_t identity_type, const uint8_t *identity, size_t identity_size,
                                                const uint8_t *nonce, size_t nonce_size, uint8_t *out,
                                                size_t out_size);

// Writes the data of a REDIRECTED_FROM, at the client: for the IKE_SA_INIT request to the gateway that it was moved to,
// with the address of the gateway that it comes from. Numbers, in the order of the checks, as above:
//    2  the output has under 513 octets
//   30  the identity has a type or a size that is not allowed, or is a name
//    0  written
UNMAVRETH_MUST_USE
unmavreth_data_written unmavreth_write_redirected_from(uint8_t identity_type, const uint8_t *identity,
                                                       size_t identity_size, uint8_t *out, size_t out_size);

// Writes the data of a REDIRECT_SUPPORTED, at the client: for its IKE_SA_INIT request. Numbers:
//    2  the output has under 513 octets, though nothing is written
//    0  done: `length` is 0, and every octet of the output stays as it was
UNMAVRETH_MUST_USE
unmavreth_data_written unmavreth_write_redirect_supported(uint8_t *out, size_t out_size);

// What a client keeps of the redirects that it accepted, from gateway to gateway: the times of the last ones, oldest
// first. All zeros is a fresh record.
typedef struct unmavreth_redirects {
    uint8_t count; // how many places of `times` hold one; over 5 it reads as 5
    uint64_t times[UNMAVRETH_REDIRECTS_MOST];
} unmavreth_redirects;
UNMAVRETH_SIZE(unmavreth_redirects, 48);
UNMAVRETH_AT(unmavreth_redirects, count, 0);
UNMAVRETH_AT(unmavreth_redirects, times, 8);

typedef struct unmavreth_redirect_decision {
    uint8_t number;
    uint8_t identity_type; // enum unmavreth_identity; 0 with every number but 0
    size_t nonce_len;      // octets of the nonce; 0 if there is none, as with every number but 0
} unmavreth_redirect_decision;
UNMAVRETH_SIZE(unmavreth_redirect_decision, 16);
UNMAVRETH_AT(unmavreth_redirect_decision, number, 0);
UNMAVRETH_AT(unmavreth_redirect_decision, identity_type, 1);
UNMAVRETH_AT(unmavreth_redirect_decision, nonce_len, 8);

// Decides, at the client, whether a REDIRECT is to be followed, by its data and the exchange that it came in.
//   count, times   the two fields of the client's record, an unmavreth_redirects
//   identity       where the identity of the gateway to go to is handed out, as in unmavreth_read_redirect
//   exchange       enum unmavreth_exchange
//   sent           the nonce of the client's IKE_SA_INIT request; looked at in IKE_SA_INIT only
//   time           now, in seconds, by any clock that does not run back
// Numbers, in the order of the checks:
//   30  the data is not that of a REDIRECT, as in unmavreth_read_redirect; or, in IKE_SA_INIT, `sent` has not 16 to 256
//       octets
//   31  a middle IKE_AUTH response or any other exchange; or a nonce outside IKE_SA_INIT, were it a single octet
//   32  in IKE_SA_INIT, no nonce, or another than the one sent
//   33  `time` is before that of the last accepted one
//   34  five accepted ones are less than 300 seconds before `time`
//    0  accepted, and `time` is kept: the record has the times of the last five accepted ones, zeros past the count
// With every number but 0 the record stays as it was and the part is empty. From a fresh record on, no sixth is
// accepted within 300 seconds.
UNMAVRETH_MUST_USE
unmavreth_redirect_decision unmavreth_decide_redirect(uint8_t *count, uint64_t times[UNMAVRETH_REDIRECTS_MOST],
                                                      unmavreth_part *identity, uint8_t exchange, const uint8_t *sent,
                                                      size_t sent_size, uint64_t time, const uint8_t *data,
                                                      size_t data_size);

#undef UNMAVRETH_AT
#undef UNMAVRETH_SIZE
#undef UNMAVRETH_ASSERT
#undef UNMAVRETH_KEPT
#undef UNMAVRETH_NAMED
#undef UNMAVRETH_JOINED

#ifdef __cplusplus
}
#endif

#endif
