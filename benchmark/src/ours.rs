// A row's call on the library: once uncounted, once counted on state of its own.
use crate::chains::COOKIE;
use crate::convert;
use crate::counted::*;
use crate::job::{Asking, Checking, Cloning, Deciding, Handling, Job, OpeningBoth};
use crate::told::Told;
use reference::tables::Tables;
use std::hint::black_box;
use unmavreth::limits::OPERATORS;
use unmavreth::redirect::Identity;
use unmavreth::{
    Assessment, Draft, Gateway, IkeRecord, IpsecRecord, Policy, Reading, Reply, Written,
};

/// What an output holds before the call, so that the octets past a response are compared too.
pub const BEFORE: u8 = 0xa5;

/// The uncounted call alone.
pub fn told(job: &Job) -> Told {
    match job {
        Job::Read { first, body } => reading(body, &unmavreth::read(*first, body)),
        Job::Handle(handling) => handled(handling, false),
        Job::Check(checking) => checked(checking, false),
        Job::Open(opening) => opened(opening, false),
        Job::Clone(cloning) => cloned(cloning, false),
        Job::Decide(of) => decided(of, false),
        Job::Write(draft) => {
            let mut out = vec![BEFORE; 564];
            let told = unmavreth::write(draft, &mut out);
            written(&told, out)
        }
        Job::Assess { first, body } => assessed(body, &unmavreth::assess(&COOKIE, *first, body)),
        Job::Acceptable(of) => accepted(of, false),
    }
}

/// A first call warms what is set up once; then comes the counted one.
pub fn counted(job: &Job) -> Told {
    black_box(told(job));
    match job {
        Job::Read { first, body } => {
            reading(body, &black_box(counted_ours_read(black_box(*first), black_box(body))))
        }
        Job::Handle(handling) => handled(handling, true),
        Job::Check(checking) => checked(checking, true),
        Job::Open(opening) => opened(opening, true),
        Job::Clone(cloning) => cloned(cloning, true),
        Job::Decide(of) => decided(of, true),
        Job::Write(draft) => count_write(draft),
        Job::Assess { first, body } => assessed(
            body,
            &black_box(counted_ours_assess(black_box(&COOKIE), black_box(*first), black_box(body))),
        ),
        Job::Acceptable(of) => accepted(of, true),
    }
}

fn accepted(of: &Asking, count: bool) -> Told {
    let policies = of.policies();
    let call = if count { counted_ours_acceptable } else { unmavreth::acceptable };
    let accepted = call(black_box(&policies), black_box(&of.pair), black_box(of.operator));
    Told::accepted(black_box(accepted))
}

fn count_write(draft: &Draft) -> Told {
    let mut out = vec![BEFORE; 564];
    let told = black_box(counted_ours_write(black_box(draft), black_box(&mut out)));
    written(&told, out)
}

/// What is lent for a request, a response or an opening. It begins where a cache line does, for how octets are
/// copied depends on where they lie, and the heap would put it here or there.
#[repr(align(64))]
pub struct Lent {
    pub ike: [IkeRecord; 32],
    pub ipsec: [IpsecRecord; 128],
    pub policies: [Policy; OPERATORS],
    pub out: [u8; 128],
}

impl Lent {
    pub fn of(gateway: &Gateway) -> Box<Self> {
        let Gateway { ike, ipsec, policies } = gateway.clone();
        Box::new(Lent { ike: *ike, ipsec: *ipsec, policies, out: [BEFORE; 128] })
    }

    pub fn tables(&self) -> Tables {
        convert::tables(&self.ike, &self.ipsec, &self.policies)
    }
}

fn handled(handling: &Handling, count: bool) -> Told {
    let mut lent = Lent::of(&handling.gateway);
    let request = handling.request();
    let call = if count { counted_ours_handle } else { unmavreth::handle };
    let reply = black_box(call(
        black_box(&mut lent.ike),
        black_box(&lent.ipsec[..]),
        black_box(&lent.policies),
        black_box(&request),
        black_box(&mut lent.out[..handling.room]),
    ));
    let octets = vec![reply.cookie(&handling.body).to_vec(), lent.out[..handling.room].to_vec()];
    Told { fields: replied(&reply), octets, tables: Some(lent.tables()) }
}

fn checked(checking: &Checking, count: bool) -> Told {
    let mut lent = Lent::of(&checking.gateway);
    let call = if count { counted_ours_check } else { unmavreth::check };
    let told = black_box(call(
        black_box(&mut lent.ike),
        black_box(&mut lent.ipsec[..]),
        black_box(&checking.response()),
    ));
    Told { tables: Some(lent.tables()), ..assessed(&checking.body, &told) }
}

fn opened(opening: &OpeningBoth, count: bool) -> Told {
    let mut lent = Lent::of(&opening.gateway);
    let call = if count { counted_ours_open } else { unmavreth::open };
    let number = black_box(call(
        black_box(&mut lent.ike),
        black_box(&mut lent.ipsec[..]),
        black_box(&opening.opening),
    ));
    let fields = vec![("number", u8::from(number).into())];
    Told { fields, octets: vec![], tables: Some(lent.tables()) }
}

fn cloned(cloning: &Cloning, count: bool) -> Told {
    let mut lent = Lent::of(&cloning.gateway);
    let call = if count { counted_ours_clone } else { unmavreth::clone_ike };
    let reply = black_box(call(
        black_box(&mut lent.ike),
        black_box(&cloning.request()),
        black_box(&mut lent.out[..cloning.room]),
    ));
    let fields = vec![
        ("number", u8::from(reply.number()).into()),
        ("first", reply.first().into()),
        ("payloads", reply.payloads().into()),
        ("offset", reply.offset().into()),
        ("ordinal", reply.ordinal().into()),
        ("length", reply.length().into()),
    ];
    let octets = vec![lent.out[..cloning.room].to_vec()];
    Told { fields, octets, tables: Some(lent.tables()) }
}

fn decided(of: &Deciding, count: bool) -> Told {
    let mut record = of.record;
    let call = if count { counted_ours_decide } else { unmavreth::redirect::decide };
    let told = black_box(call(
        black_box(&mut record),
        black_box(of.exchange),
        black_box(&of.sent),
        black_box(of.time),
        black_box(&of.data),
    ));
    match told {
        Ok(told) => {
            let Identity { identity_type, octets } = told.identity;
            Told::decided(0, identity_type, [octets, told.nonce], &record)
        }
        Err(number) => Told::decided(number.into(), 0, [&[], &[]], &record),
    }
}

fn replied(reply: &Reply) -> Vec<(&'static str, u64)> {
    vec![
        ("number", u8::from(reply.number()).into()),
        ("update", effect(reply.update())),
        ("list", effect(reply.list())),
        ("first", reply.first().into()),
        ("left_off", reply.left_off().into()),
        ("payloads", reply.payloads().into()),
        ("offset", reply.offset().into()),
        ("ordinal", reply.ordinal().into()),
        ("length", reply.length().into()),
    ]
}

fn effect(effect: unmavreth::Effect) -> u64 {
    match effect {
        unmavreth::Effect::None => 0,
        unmavreth::Effect::Applied => 1,
        unmavreth::Effect::Stale => 2,
        unmavreth::Effect::Other(other) => other.into(),
    }
}

fn reading(body: &[u8], reading: &Reading) -> Told {
    let seen = reading.seen();
    let mut fields: Vec<(&str, u64)> = vec![
        ("number", u8::from(reading.number()).into()),
        ("offset", reading.offset().into()),
        ("ordinal", reading.ordinal().into()),
        ("payloads", seen.tally.payloads.into()),
        ("unknown_payloads", seen.tally.unknown_payloads.into()),
        ("unknown_notifies", seen.tally.unknown_notifies.into()),
        ("errors", seen.tally.errors.into()),
        ("first_error", seen.tally.first_error.into()),
        ("update", seen.update.is_set().into()),
        ("no_additional", seen.no_additional.is_set().into()),
        ("nat_source", seen.nat_source.into()),
        ("nat_destination", seen.nat_destination.into()),
        ("no_nats", seen.no_nats.into()),
        ("cookie", seen.cookie.into()),
        ("addresses", seen.list.count.into()),
    ];
    fields.extend(seen.list.offsets.map(|offset| ("offset", offset.into())));
    fields.extend(seen.list.families.map(|family| ("family", family.into())));
    Told { fields, octets: vec![reading.cookie(body).to_vec()], tables: None }
}

fn written(written: &Written, out: Vec<u8>) -> Told {
    let fields = vec![
        ("number", u8::from(written.number()).into()),
        ("first", written.first().into()),
        ("length", written.length().into()),
    ];
    Told { fields, octets: vec![out], tables: None }
}

fn assessed(body: &[u8], assessed: &Assessment) -> Told {
    let outcome = match assessed.outcome() {
        unmavreth::Outcome::None => 0,
        unmavreth::Outcome::Close => 1,
        unmavreth::Outcome::NatSeen => 2,
        unmavreth::Outcome::Unacceptable => 3,
        unmavreth::Outcome::Failed => 4,
        unmavreth::Outcome::Accepted => 5,
        unmavreth::Outcome::Other(other) => other,
    };
    let fields = vec![
        ("number", u8::from(assessed.number()).into()),
        ("outcome", outcome.into()),
        ("payloads", assessed.payloads().into()),
        ("offset", assessed.offset().into()),
        ("ordinal", assessed.ordinal().into()),
        ("tally", assessed.tally().into()),
    ];
    Told { fields, octets: vec![assessed.cookie(body).to_vec()], tables: None }
}
