// Calls for the runs that are written down one by one: of displays by their numbers.
use super::super::reader::draft::{ChainDraft, Draft};
use super::super::requests::listed::setting::{packet, update};
use super::super::tables::listed::contents::ipv4_pair;
use super::super::tables::spis;
use crate::agreed::Agreed;
use crate::any_call::AnyCall;
use crate::asked::Asked;
use crate::calls::Call;
use crate::check::CheckResponse;
use crate::cloning::CloneRequest;
use crate::notify::NotifyType;
use crate::opening::Adding;
use crate::opening_both::Opening;
use crate::policy::{Rule, RuleList, RULE_PLACES};
use crate::request::Request;

/// Opens the display of this number, of a peer of its own.
pub fn open(number: usize, operator: u8) -> AnyCall {
    open_of(number, number as u32, operator)
}

/// Of this peer.
pub fn open_of(number: usize, peer: u32, operator: u8) -> AnyCall {
    let agreed = Agreed { mobike: 1, cloning: 1, operator, peer };
    let (spi, child) = (spis::ike(number), spis::ipsec(number));
    AnyCall::Table(Call::OpenBoth(Opening { spi, agreed, pair: ipv4_pair(), child }))
}

/// The displays of these numbers.
pub fn opens(numbers: std::ops::Range<usize>, operator: u8) -> Vec<AnyCall> {
    numbers.map(|number| open(number, operator)).collect()
}

/// An IPsec record of this number, of the display of another one.
pub fn add(number: usize, owner: usize, operator: u8) -> AnyCall {
    let (spi, owner) = (spis::ipsec(number), spis::ike(owner));
    AnyCall::Table(Call::OpenIpsec(Adding { spi, owner, operator }))
}

pub fn adds(numbers: std::ops::Range<usize>, owner: usize, operator: u8) -> Vec<AnyCall> {
    numbers.map(|number| add(number, owner, operator)).collect()
}

pub fn close(number: usize, operator: u8) -> AnyCall {
    AnyCall::Table(Call::CloseIke { spi: spis::ike(number), operator })
}

pub fn close_ipsec(number: usize, operator: u8) -> AnyCall {
    AnyCall::Table(Call::CloseIpsec { spi: spis::ipsec(number), operator })
}

pub fn mark(number: usize, operator: u8) -> AnyCall {
    AnyCall::Table(Call::MarkDeletion { spi: spis::ike(number), operator })
}

/// Sets a policy that accepts all pairs of IPv6, or none.
pub fn policy(accepts: bool, operator: u8) -> AnyCall {
    let rules = [Rule { family: 6, ..Rule::ZERO }; RULE_PLACES];
    let (count, rules) = (u16::from(accepts), Box::new(RuleList { rules }));
    AnyCall::Table(Call::SetPolicy { count, rules, operator })
}

/// An update of the display of this number, which begins a check with its ID.
pub fn move_to_ipv6(number: usize, id: u32, operator: u8) -> AnyCall {
    let chain = ChainDraft::of(vec![update()]).assemble();
    AnyCall::Asked(Asked::Request(Request {
        spi: spis::ike(number),
        id,
        pair: packet(6),
        nat_source: vec![1; 20],
        nat_destination: vec![2; 20],
        cookie: vec![3; 8],
        check_id: id,
        operator,
        first: chain.first,
        body: chain.body,
        output: vec![0x5a; 128],
    }))
}

/// The response to that check: right, or with another cookie.
pub fn answer(number: usize, id: u32, is_right: bool, operator: u8) -> AnyCall {
    let octets = if is_right { [3; 8] } else { [4; 8] };
    let chain = ChainDraft::of(vec![Draft::notify(NotifyType::COOKIE2, &octets)]).assemble();
    let (spi, first, body) = (spis::ike(number), chain.first, chain.body);
    AnyCall::Asked(Asked::Check(CheckResponse { spi, id, first, body, operator }))
}

/// Clones the display of a number as another one.
pub fn clone(number: usize, new: usize, operator: u8) -> AnyCall {
    let draft = Draft::notify(NotifyType::CLONE_IKE_SA, &[]);
    let chain = ChainDraft::of(vec![draft]).assemble();
    let (spi, new_spi, output) = (spis::ike(number), spis::ike(new), vec![0x5a; 128]);
    let (first, body) = (chain.first, chain.body);
    AnyCall::Clone(CloneRequest { spi, new_spi, first, body, operator, output })
}

/// The calls of several, one behind the other.
pub fn row(parts: &[&[AnyCall]]) -> Vec<AnyCall> {
    parts.concat()
}
