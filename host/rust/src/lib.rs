//! The MOBIKE part of a VPN gateway (RFC 4555), as a safe interface over the proved library.
//!
//! Cryptography, sockets, key exchange and timers stay with the host. It hands over decrypted payloads
//! with the packet's addresses; the library decides, changes the tables that are lent to it, and writes
//! the response. Each function here passes on whatever it is given and tells the number that comes
//! back: nothing panics, and nothing is refused that the library doesn't refuse.
//!
//! What the host does around the calls stands in [`guide`].
//!
//! The tables are lent, and no table is copied. [`Gateway`] owns one set of them, for a host that has
//! no other place for them. Two operators may share them: each call names an [`Operator`], and finds the
//! records of this one alone.
//!
//! It links `libunmavreth.a`, which `host/archive` proves and writes to `target/staticlib`; the environment
//! variable `UNMAVRETH_LIBRARY_DIRECTORY` names another directory. A library whose interface has another
//! number than [`INTERFACE`] does not link.
//!
//! Two whole exchanges: the initiator's update with what it makes of the response, and the gateway's check
//! of where it is now:
//!
//! ```
//! use unmavreth::limits::{NAT_OCTETS, REQUEST_ROOM, RESPONSE_ROOM};
//! use unmavreth::{assess, read, write, write_check, Agreed, Ask, CheckResponse, Draft, Effect, Gateway};
//! use unmavreth::{Number, Opening, Operator, Outcome, Pair, Request, Rule};
//!
//! // The responder's end: one IKE SA with one IPsec SA, and where peers of its operator may move to.
//! let old = Pair::ipv4(([203, 0, 113, 5], 4500), ([192, 0, 2, 1], 4500));
//! let mut gateway = Gateway::new();
//! let agreed = Agreed { mobike: true.into(), ..Agreed::NONE };
//! let opening = Opening { spi: 7, agreed, pair: old, child: 70 };
//! assert_eq!(gateway.open(&opening), Number::Done);
//! let rule = Rule::ipv4(([198, 51, 100, 0], 24), ([192, 0, 2, 0], 24));
//! assert_eq!(gateway.set_policy(&[rule], Operator::A), Number::Done);
//!
//! // The initiator's end writes an update, with a cookie for the return routability check.
//! let ask = Ask { update: true, ..Ask::default() };
//! let sent = [1, 2, 3, 4, 5, 6, 7, 8];
//! let mut out = [0; REQUEST_ROOM];
//! let written = write(&Draft { ask, cookie: &sent, ..Draft::default() }, &mut out);
//! assert_eq!((written.number(), written.length()), (Number::Done, 24));
//!
//! // The request arrives from another address, and is handled. Lent with it is what a check would have: a
//! // cookie that nobody can guess, and the message ID of the gateway's next request.
//! let new = Pair::ipv4(([198, 51, 100, 7], 4500), ([192, 0, 2, 1], 4500));
//! let request = Request {
//!     spi: 7,
//!     id: 0,
//!     pair: new,
//!     nat_source: &[0; NAT_OCTETS],
//!     nat_destination: &[0; NAT_OCTETS],
//!     first: written.first(),
//!     body: written.body(&out),
//!     cookie: &[9; 16],
//!     check_id: 0,
//!     operator: Operator::A,
//! };
//! let mut answer = [0; RESPONSE_ROOM];
//! let reply = gateway.handle(&request, &mut answer);
//! assert_eq!((reply.number(), reply.update()), (Number::Done, Effect::Applied));
//! assert_eq!(reply.cookie(request.body), sent);
//! assert_eq!((gateway.ike[0].pair, gateway.ipsec[0].pair), (new, old));
//!
//! // The response goes back, and brings the cookie.
//! let assessed = assess(&sent, reply.first(), reply.response(&answer));
//! assert_eq!((assessed.number(), assessed.outcome()), (Number::Done, Outcome::Accepted));
//! assert_eq!(assessed.cookie(reply.response(&answer)), sent);
//!
//! // The gateway writes its check, and the initiator's host copies the cookie into a response.
//! let mut out = [0; REQUEST_ROOM];
//! let asked = write_check(&reply, &request, &mut out);
//! let cookie = read(asked.first(), asked.body(&out)).cookie(asked.body(&out));
//! let mut copy = [0; REQUEST_ROOM];
//! let copied = write(&Draft { cookie, ..Draft::default() }, &mut copy);
//!
//! // It comes back, and the IPsec record moves.
//! let (first, body) = (copied.first(), copied.body(&copy));
//! let response = CheckResponse { spi: 7, id: 0, first, body, operator: Operator::A };
//! assert_eq!(gateway.check(&response).outcome(), Outcome::Accepted);
//! assert_eq!((gateway.ike[0].pair, gateway.ipsec[0].pair), (new, new));
//! ```
#![deny(missing_docs)]
#![deny(unsafe_op_in_unsafe_fn)]

mod cloning;
mod gateway;
/// What a host does around the calls.
///
#[cfg_attr(doc, doc = include_str!("../../../docs/HOST.md"))]
pub mod guide {}
mod initiator;
mod layout;
pub mod limits;
mod numbers;
mod policy;
mod raw;
mod reader;
mod records;
pub mod redirect;
mod responder;
mod routability;
mod sockets;
pub mod trace;
mod version;
mod words;

pub use cloning::{
    clone_ike, write_clone, write_clone_supported, CloneRequest, CLONE_IKE_SA,
    CLONE_IKE_SA_SUPPORTED,
};
pub use gateway::Gateway;
pub use initiator::{assess, write, Draft};
pub use layout::{
    Address, Agreed, Ask, Assessment, CloneReply, Flag, IkeRecord, IpsecRecord, Offsets, Opening,
    Operator, Pair, PendingCheck, Policy, Reading, Reply, Rule, Seen, Tally, Written,
};
pub use numbers::{Effect, Number, Outcome};
pub use policy::{acceptable, set_policy};
pub use raw::INTERFACE;
pub use reader::{addresses, cookie, nat_value, no_nats, read};
pub use records::{close_ike, close_ipsec, mark_deletion, open, open_ipsec};
pub use responder::{handle, Request};
pub use routability::{check, write_check, CheckResponse};
pub use version::interface;
pub use words::{notify_words, payload_words};
