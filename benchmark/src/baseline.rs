// A row's call on the lean baseline: once uncounted, once counted on state of its own.
use crate::chains::COOKIE;
use crate::counted::*;
use crate::job::{Checking, Cloning, Deciding, Handling, Job, OpeningBoth};
use crate::lean::{self, Assessment, CloneReply, Reading, Reply, Written};
use crate::ours::{Lent, BEFORE};
use crate::told::Told;
use std::hint::black_box;
use unmavreth::Draft;

/// The uncounted call alone.
pub fn told(job: &Job) -> Told {
    match job {
        Job::Read { first, body } => read(*first, body, false),
        Job::Handle(handling) => handled(handling, false),
        Job::Check(checking) => checked(checking, false),
        Job::Open(opening) => opened(opening, false),
        Job::Clone(cloning) => cloned(cloning, false),
        Job::Decide(of) => decided(of, false),
        Job::Write(draft) => write(draft, false),
        Job::Assess { first, body } => assessed(body, &lean::assess(&COOKIE, *first, body)),
        Job::Acceptable(of) => Told::accepted(lean::acceptable(&of.policy, &of.pair)),
    }
}

/// A first call, then the counted one, as on the other sides.
pub fn counted(job: &Job) -> Told {
    black_box(told(job));
    match job {
        Job::Read { first, body } => read(*first, body, true),
        Job::Handle(handling) => handled(handling, true),
        Job::Check(checking) => checked(checking, true),
        Job::Open(opening) => opened(opening, true),
        Job::Clone(cloning) => cloned(cloning, true),
        Job::Decide(of) => decided(of, true),
        Job::Write(draft) => write(draft, true),
        Job::Assess { first, body } => assessed(
            body,
            &black_box(counted_lean_assess(black_box(&COOKIE), black_box(*first), black_box(body))),
        ),
        Job::Acceptable(of) => Told::accepted(black_box(counted_lean_acceptable(
            black_box(&of.policy),
            black_box(&of.pair),
        ))),
    }
}

fn read(first: u8, body: &[u8], count: bool) -> Told {
    let mut read = Reading::default();
    let call = if count { counted_lean_read } else { lean::read };
    call(black_box(first), black_box(body), black_box(&mut read));
    reading(body, &read)
}

fn handled(handling: &Handling, count: bool) -> Told {
    let mut lent = Lent::of(&handling.gateway);
    let request = handling.request();
    let call = if count { counted_lean_handle } else { lean::handle };
    let reply = black_box(call(
        black_box(&mut lent.ike),
        black_box(&lent.ipsec[..]),
        black_box(&lent.policies),
        black_box(&request),
        black_box(&mut lent.out[..handling.room]),
    ));
    let cookie = part(&handling.body, reply.cookie, reply.cookie_len);
    let octets = vec![cookie, lent.out[..handling.room].to_vec()];
    Told { fields: replied(&reply), octets, tables: Some(lent.tables()) }
}

fn decided(of: &Deciding, count: bool) -> Told {
    let mut record = of.record;
    let call = if count { counted_lean_decide } else { lean::decide };
    let told = black_box(call(
        black_box(&mut record),
        black_box(of.exchange.into()),
        black_box(&of.sent),
        black_box(of.time),
        black_box(&of.data),
    ));
    Told::decided(told.number, told.identity_type, [told.identity, told.nonce], &record)
}

fn checked(checking: &Checking, count: bool) -> Told {
    let mut lent = Lent::of(&checking.gateway);
    let call = if count { counted_lean_check } else { lean::check };
    let told = black_box(call(
        black_box(&mut lent.ike),
        black_box(&mut lent.ipsec[..]),
        black_box(&checking.response()),
    ));
    Told { tables: Some(lent.tables()), ..assessed(&checking.body, &told) }
}

fn opened(opening: &OpeningBoth, count: bool) -> Told {
    let mut lent = Lent::of(&opening.gateway);
    let call = if count { counted_lean_open } else { lean::open };
    let number = black_box(call(
        black_box(&mut lent.ike),
        black_box(&mut lent.ipsec[..]),
        black_box(&opening.opening),
    ));
    let fields = vec![("number", number.into())];
    Told { fields, octets: vec![], tables: Some(lent.tables()) }
}

fn cloned(cloning: &Cloning, count: bool) -> Told {
    let mut lent = Lent::of(&cloning.gateway);
    let call = if count { counted_lean_clone } else { lean::clone_ike };
    let CloneReply { number, first, payloads, offset, ordinal, length } = black_box(call(
        black_box(&mut lent.ike),
        black_box(&cloning.request()),
        black_box(&mut lent.out[..cloning.room]),
    ));
    let fields = vec![
        ("number", number.into()),
        ("first", first.into()),
        ("payloads", payloads.into()),
        ("offset", offset.into()),
        ("ordinal", ordinal.into()),
        ("length", length.into()),
    ];
    let octets = vec![lent.out[..cloning.room].to_vec()];
    Told { fields, octets, tables: Some(lent.tables()) }
}

fn write(draft: &Draft, count: bool) -> Told {
    let mut out = vec![BEFORE; 564];
    let call = if count { counted_lean_write } else { lean::write };
    let Written { number, first, length } =
        black_box(call(black_box(draft), black_box(&mut out[..])));
    let fields =
        vec![("number", number.into()), ("first", first.into()), ("length", length.into())];
    Told { fields, octets: vec![out], tables: None }
}

fn replied(reply: &Reply) -> Vec<(&'static str, u64)> {
    vec![
        ("number", reply.number.into()),
        ("update", reply.update.into()),
        ("list", reply.list.into()),
        ("first", reply.first.into()),
        ("left_off", reply.left_off.into()),
        ("payloads", reply.payloads.into()),
        ("offset", reply.offset.into()),
        ("ordinal", reply.ordinal.into()),
        ("length", reply.length.into()),
    ]
}

fn reading(body: &[u8], reading: &Reading) -> Told {
    let (number, seen) = (reading.number, &reading.seen);
    let mut fields: Vec<(&str, u64)> = vec![
        ("number", number.into()),
        ("offset", reading.offset.into()),
        ("ordinal", reading.ordinal.into()),
        ("payloads", seen.tally.payloads.into()),
        ("unknown_payloads", seen.tally.unknown_payloads.into()),
        ("unknown_notifies", seen.tally.unknown_notifies.into()),
        ("errors", seen.tally.errors.into()),
        ("first_error", seen.tally.first_error.into()),
        ("update", seen.update.is_set().into()),
        ("no_additional", seen.no_additional.is_set().into()),
        ("nat_source", seen.nat_source.into()),
        ("nat_destination", seen.nat_destination.into()),
        ("no_nats", seen.no_nats.into()),
        ("cookie", seen.cookie.into()),
        ("addresses", seen.list.count.into()),
    ];
    fields.extend(seen.list.offsets.map(|offset| ("offset", offset.into())));
    fields.extend(seen.list.families.map(|family| ("family", family.into())));
    Told { fields, octets: vec![part(body, seen.cookie, seen.cookie_len)], tables: None }
}

fn part(body: &[u8], offset: u16, length: u16) -> Vec<u8> {
    body[usize::from(offset)..][..usize::from(length)].to_vec()
}

fn assessed(body: &[u8], assessed: &Assessment) -> Told {
    let fields = vec![
        ("number", assessed.number.into()),
        ("outcome", assessed.outcome.into()),
        ("payloads", assessed.payloads.into()),
        ("offset", assessed.offset.into()),
        ("ordinal", assessed.ordinal.into()),
        ("tally", assessed.tally.into()),
    ];
    let cookie = part(body, assessed.cookie, assessed.cookie_len);
    Told { fields, octets: vec![cookie], tables: None }
}
