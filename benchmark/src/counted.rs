// The counted functions: each makes one call, and what goes on inside it is all that is counted.
//
// What a call gives is shown to `black_box` before it is given back, so that the call isn't the last
// thing that the function does: a jump into the library could not be told from leaving the function.
use crate::{bit_by_bit, lean};
use reference::address::AddressPair;
use reference::asking::Arguments;
use reference::assess::Assessed;
use reference::calls::Call;
use reference::cloning::Cloned;
use reference::reply::Handled;
use reference::rules::{Plain, PolicyRules};
use reference::tables::Tables;
use std::hint::black_box;
use unmavreth::limits::OPERATORS;
use unmavreth::redirect::{Exchange, Redirect, Redirects};
use unmavreth::{
    Assessment, CheckResponse, CloneReply, CloneRequest, Draft, IkeRecord, IpsecRecord, Number,
    Opening, Operator, Pair, Policy, Reading, Reply, Request, Written,
};

/// The names that callgrind is told. With a wrong one nothing is counted, which is an error.
pub const NAMES: [&str; 27] = [
    "counted_ours_read",
    "counted_ours_handle",
    "counted_ours_check",
    "counted_ours_open",
    "counted_ours_clone",
    "counted_ours_decide",
    "counted_lean_decide",
    "counted_ours_write",
    "counted_ours_assess",
    "counted_ours_acceptable",
    "counted_second_read",
    "counted_second_handle",
    "counted_second_check",
    "counted_second_open",
    "counted_second_clone",
    "counted_second_write",
    "counted_second_assess",
    "counted_second_acceptable",
    "counted_lean_read",
    "counted_lean_handle",
    "counted_lean_check",
    "counted_lean_open",
    "counted_lean_clone",
    "counted_lean_write",
    "counted_lean_assess",
    "counted_lean_acceptable",
    "counted_bits_acceptable",
];

#[inline(never)]
#[no_mangle]
pub fn counted_ours_read(first: u8, body: &[u8]) -> Reading {
    let reading = unmavreth::read(first, body);
    black_box(&reading);
    reading
}

#[inline(never)]
#[no_mangle]
pub fn counted_ours_handle(
    ike: &mut [IkeRecord; 32],
    ipsec: &[IpsecRecord],
    policies: &[Policy; OPERATORS],
    request: &Request<'_>,
    out: &mut [u8],
) -> Reply {
    let reply = unmavreth::handle(ike, ipsec, policies, request, out);
    black_box(&reply);
    reply
}

#[inline(never)]
#[no_mangle]
pub fn counted_ours_check(
    ike: &mut [IkeRecord; 32],
    ipsec: &mut [IpsecRecord],
    response: &CheckResponse<'_>,
) -> Assessment {
    let assessed = unmavreth::check(ike, ipsec, response);
    black_box(&assessed);
    assessed
}

#[inline(never)]
#[no_mangle]
pub fn counted_ours_open(
    ike: &mut [IkeRecord; 32],
    ipsec: &mut [IpsecRecord],
    opening: &Opening,
) -> Number {
    let number = unmavreth::open(ike, ipsec, opening);
    black_box(&number);
    number
}

#[inline(never)]
#[no_mangle]
pub fn counted_ours_decide<'a>(
    record: &mut Redirects,
    exchange: Exchange,
    sent: &[u8],
    time: u64,
    data: &'a [u8],
) -> Result<Redirect<'a>, Number> {
    let decided = unmavreth::redirect::decide(record, exchange, sent, time, data);
    black_box(&decided);
    decided
}

#[inline(never)]
#[no_mangle]
pub fn counted_lean_decide<'a>(
    record: &mut Redirects,
    exchange: u8,
    sent: &[u8],
    time: u64,
    data: &'a [u8],
) -> lean::Decision<'a> {
    let decided = lean::decide(record, exchange, sent, time, data);
    black_box(&decided);
    decided
}

#[inline(never)]
#[no_mangle]
pub fn counted_ours_write(draft: &Draft<'_>, out: &mut [u8]) -> Written {
    let written = unmavreth::write(draft, out);
    black_box(&written);
    written
}

#[inline(never)]
#[no_mangle]
pub fn counted_ours_assess(sent: &[u8], first: u8, body: &[u8]) -> Assessment {
    let assessed = unmavreth::assess(sent, first, body);
    black_box(&assessed);
    assessed
}

#[inline(never)]
#[no_mangle]
pub fn counted_ours_acceptable(
    policies: &[Policy; OPERATORS],
    pair: &Pair,
    operator: Operator,
) -> bool {
    let accepted = unmavreth::acceptable(policies, pair, operator);
    black_box(&accepted);
    accepted
}

#[inline(never)]
#[no_mangle]
pub fn counted_second_read(first: u8, body: &[u8]) -> reference::reader::Reading<'_> {
    let reading = reference::reader::read(first, body, &Plain);
    black_box(&reading);
    reading
}

#[inline(never)]
#[no_mangle]
pub fn counted_second_handle<'a>(
    request: &'a reference::request::Request,
    tables: &mut Tables,
) -> Handled<'a> {
    let handled = reference::handler::handle(request, tables, &Plain);
    black_box(&handled);
    handled
}

#[inline(never)]
#[no_mangle]
pub fn counted_second_open(call: &Call, tables: &mut Tables) -> u8 {
    let number = call.make(tables, &Plain);
    black_box(&number);
    number
}

#[inline(never)]
#[no_mangle]
pub fn counted_second_write(arguments: &Arguments) -> reference::writer::Written {
    let written = reference::writer::write(arguments, &Plain);
    black_box(&written);
    written
}

#[inline(never)]
#[no_mangle]
pub fn counted_second_assess<'a>(sent: &[u8], first: u8, body: &'a [u8]) -> Assessed<'a> {
    let assessed = reference::assess::assess(sent, first, body, &Plain);
    black_box(&assessed);
    assessed
}

#[inline(never)]
#[no_mangle]
pub fn counted_second_acceptable(policy: &reference::policy::Policy, pair: &AddressPair) -> bool {
    let accepted = Plain.accepts(policy, pair);
    black_box(&accepted);
    accepted
}

#[inline(never)]
#[no_mangle]
pub fn counted_lean_read(first: u8, body: &[u8], reading: &mut lean::Reading) {
    lean::read(first, body, reading);
    black_box(reading);
}

#[inline(never)]
#[no_mangle]
pub fn counted_lean_handle(
    ike: &mut [IkeRecord; 32],
    ipsec: &[IpsecRecord],
    policies: &[Policy; OPERATORS],
    request: &Request<'_>,
    out: &mut [u8],
) -> lean::Reply {
    let reply = lean::handle(ike, ipsec, policies, request, out);
    black_box(&reply);
    reply
}

#[inline(never)]
#[no_mangle]
pub fn counted_lean_check(
    ike: &mut [IkeRecord; 32],
    ipsec: &mut [IpsecRecord],
    response: &CheckResponse<'_>,
) -> lean::Assessment {
    let assessed = lean::check(ike, ipsec, response);
    black_box(&assessed);
    assessed
}

#[inline(never)]
#[no_mangle]
pub fn counted_lean_open(
    ike: &mut [IkeRecord; 32],
    ipsec: &mut [IpsecRecord],
    opening: &Opening,
) -> u8 {
    let number = lean::open(ike, ipsec, opening);
    black_box(&number);
    number
}

#[inline(never)]
#[no_mangle]
pub fn counted_lean_write(draft: &Draft<'_>, out: &mut [u8]) -> lean::Written {
    let written = lean::write(draft, out);
    black_box(&written);
    written
}

#[inline(never)]
#[no_mangle]
pub fn counted_lean_assess(sent: &[u8], first: u8, body: &[u8]) -> lean::Assessment {
    let assessed = lean::assess(sent, first, body);
    black_box(&assessed);
    assessed
}

#[inline(never)]
#[no_mangle]
pub fn counted_lean_acceptable(policy: &Policy, pair: &Pair) -> bool {
    let accepted = lean::acceptable(policy, pair);
    black_box(&accepted);
    accepted
}

#[inline(never)]
#[no_mangle]
pub fn counted_bits_acceptable(policy: &Policy, pair: &Pair) -> bool {
    let accepted = bit_by_bit::acceptable(policy, pair);
    black_box(&accepted);
    accepted
}

#[inline(never)]
#[no_mangle]
pub fn counted_second_check<'a>(
    response: &'a reference::check::CheckResponse,
    tables: &mut Tables,
) -> Assessed<'a> {
    let assessed = reference::check::decide(response, tables, &reference::rules::Plain);
    black_box(&assessed);
    assessed
}

#[inline(never)]
#[no_mangle]
pub fn counted_ours_clone(
    ike: &mut [IkeRecord; 32],
    request: &CloneRequest<'_>,
    out: &mut [u8],
) -> CloneReply {
    let reply = unmavreth::clone_ike(ike, request, out);
    black_box(&reply);
    reply
}

#[inline(never)]
#[no_mangle]
pub fn counted_lean_clone(
    ike: &mut [IkeRecord; 32],
    request: &CloneRequest<'_>,
    out: &mut [u8],
) -> lean::CloneReply {
    let reply = lean::clone_ike(ike, request, out);
    black_box(&reply);
    reply
}

#[inline(never)]
#[no_mangle]
pub fn counted_second_clone(
    request: &reference::cloning::CloneRequest,
    tables: &mut Tables,
) -> Cloned {
    let cloned = reference::cloning::clone(request, tables, &Plain);
    black_box(&cloned);
    cloned
}
