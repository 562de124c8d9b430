// A row's call on the second program: once uncounted, once counted on state of its own.
use crate::chains::{COOKIE, NAT_DESTINATION};
use crate::convert;
use crate::counted::*;
use crate::job::{Checking, Cloning, Handling, Job, OpeningBoth};
use crate::ours::BEFORE;
use crate::told::Told;
use reference::asking::{Arguments, Ask};
use reference::assess::Assessed;
use reference::calls::Call;
use reference::cloning::CloneRequest;
use reference::outcome::Outcome;
use reference::reader::Reading;
use reference::request::Request;
use reference::rules::{Plain, PolicyRules};
use reference::writer::Written;
use std::hint::black_box;

/// The uncounted call alone; of a decision on a redirect it tells nothing.
pub fn told(job: &Job) -> Option<Told> {
    Some(match job {
        Job::Read { first, body } => reading(body, &reference::reader::read(*first, body, &Plain)),
        Job::Handle(handling) => handled(handling, false),
        Job::Check(checking) => checked(checking, false),
        Job::Open(opening) => opened(opening, false),
        Job::Clone(cloning) => cloned(cloning, false),
        Job::Decide(_) => return None,
        Job::Write(draft) => written(reference::writer::write(&arguments(draft), &Plain)),
        Job::Assess { first, body } => {
            assessed(reference::assess::assess(&COOKIE, *first, body, &Plain))
        }
        Job::Acceptable(of) => {
            let (policy, pair) = (convert::policy(&of.policy), convert::pair(&of.pair));
            Told::accepted(Plain.accepts(&policy, &pair))
        }
    })
}

/// A first call warms what is set up once; then comes the counted one.
pub fn counted(job: &Job) -> Option<Told> {
    black_box(told(job)?);
    Some(match job {
        Job::Read { first, body } => {
            let (first, body) = (black_box(*first), black_box(&body[..]));
            reading(body, &black_box(counted_second_read(first, body)))
        }
        Job::Handle(handling) => handled(handling, true),
        Job::Check(checking) => checked(checking, true),
        Job::Open(opening) => opened(opening, true),
        Job::Clone(cloning) => cloned(cloning, true),
        Job::Decide(_) => return None,
        Job::Write(draft) => {
            let arguments = arguments(draft);
            written(black_box(counted_second_write(black_box(&arguments))))
        }
        Job::Assess { first, body } => assessed(black_box(counted_second_assess(
            black_box(&COOKIE),
            black_box(*first),
            black_box(body),
        ))),
        Job::Acceptable(of) => {
            let (policy, pair) = (convert::policy(&of.policy), convert::pair(&of.pair));
            Told::accepted(black_box(counted_second_acceptable(
                black_box(&policy),
                black_box(&pair),
            )))
        }
    })
}

fn arguments(draft: &unmavreth::Draft) -> Arguments {
    let ask = Ask {
        update: draft.ask.update,
        no_nats: draft.ask.no_nats,
        nat_source: draft.ask.nat_source,
        nat_destination: draft.ask.nat_destination,
        no_additional: draft.ask.no_additional,
        count: draft.ask.count,
        clone_supported: draft.ask.clone_supported,
        clone: draft.ask.clone,
    };
    Arguments {
        ask,
        pair: convert::pair(&draft.pair),
        addresses: draft.addresses.each_ref().map(convert::address),
        nat_source: draft.nat_source.to_vec(),
        nat_destination: draft.nat_destination.to_vec(),
        cookie: draft.cookie.to_vec(),
        output: vec![BEFORE; 564],
    }
}

fn request(handling: &Handling) -> Request {
    let given = handling.request();
    Request {
        spi: given.spi,
        id: given.id,
        pair: convert::pair(&given.pair),
        nat_source: given.nat_source.to_vec(),
        nat_destination: NAT_DESTINATION.to_vec(),
        cookie: given.cookie.to_vec(),
        check_id: given.check_id,
        operator: given.operator.into(),
        first: given.first,
        body: given.body.to_vec(),
        output: vec![BEFORE; handling.room],
    }
}

fn handled(handling: &Handling, count: bool) -> Told {
    let given = &handling.gateway;
    let mut tables = convert::tables(&given.ike, &given.ipsec, &given.policies);
    let request = request(handling);
    let (given, lent) = (black_box(&request), black_box(&mut tables));
    let handled = black_box(match count {
        true => counted_second_handle(given, lent),
        false => reference::handler::handle(given, lent, &Plain),
    });
    let reply = &handled.reply;
    let fields = vec![
        ("number", reply.number.into()),
        ("update", reply.update.into()),
        ("list", reply.list.into()),
        ("first", reply.first.into()),
        ("left_off", reply.left_off as u64),
        ("payloads", reply.payloads as u64),
        ("offset", reply.offset as u64),
        ("ordinal", reply.ordinal as u64),
        ("length", reply.length as u64),
    ];
    let octets = vec![reply.handed_out.octets.to_vec(), handled.output];
    Told { fields, octets, tables: Some(tables) }
}

fn checked(checking: &Checking, count: bool) -> Told {
    let given = &checking.gateway;
    let mut tables = convert::tables(&given.ike, &given.ipsec, &given.policies);
    let response = convert::check_response(&checking.response());
    let (given, lent) = (black_box(&response), black_box(&mut tables));
    let told = assessed(black_box(match count {
        true => counted_second_check(given, lent),
        false => reference::check::decide(given, lent, &reference::rules::Plain),
    }));
    Told { tables: Some(tables), ..told }
}

fn opened(opening: &OpeningBoth, count: bool) -> Told {
    let given = &opening.gateway;
    let mut tables = convert::tables(&given.ike, &given.ipsec, &given.policies);
    let opening = Call::OpenBoth(convert::opening(&opening.opening));
    let (opening, lent) = (black_box(&opening), black_box(&mut tables));
    let number = black_box(match count {
        true => counted_second_open(opening, lent),
        false => opening.make(lent, &Plain),
    });
    Told { fields: vec![("number", number.into())], octets: vec![], tables: Some(tables) }
}

fn cloned(cloning: &Cloning, count: bool) -> Told {
    let given = &cloning.gateway;
    let mut tables = convert::tables(&given.ike, &given.ipsec, &given.policies);
    let Cloning { spi, new_spi, first, ref body, room, operator, .. } = *cloning;
    let (body, operator, output) = (body.clone(), operator.into(), vec![BEFORE; room]);
    let request = CloneRequest { spi, new_spi, first, body, operator, output };
    let (given, lent) = (black_box(&request), black_box(&mut tables));
    let cloned = black_box(match count {
        true => counted_second_clone(given, lent),
        false => reference::cloning::clone(given, lent, &Plain),
    });
    let reply = &cloned.reply;
    let fields = vec![
        ("number", reply.number.into()),
        ("first", reply.first.into()),
        ("payloads", reply.payloads as u64),
        ("offset", reply.offset as u64),
        ("ordinal", reply.ordinal as u64),
        ("length", reply.length as u64),
    ];
    Told { fields, octets: vec![cloned.output], tables: Some(tables) }
}

fn reading(body: &[u8], reading: &Reading) -> Told {
    let outcome = Outcome::of(reading, body, &Plain);
    let mut fields: Vec<(&str, u64)> = vec![
        ("number", outcome.number.into()),
        ("offset", outcome.offset as u64),
        ("ordinal", outcome.ordinal as u64),
        ("payloads", outcome.payloads as u64),
        ("unknown_payloads", outcome.unknown_payloads as u64),
        ("unknown_notifies", outcome.unknown_notifies as u64),
        ("errors", outcome.errors as u64),
        ("first_error", outcome.first_error.into()),
        ("update", outcome.update.into()),
        ("no_additional", outcome.no_additional.into()),
        ("nat_source", outcome.nat_source.offset as u64),
        ("nat_destination", outcome.nat_destination.offset as u64),
        ("no_nats", outcome.no_nats.offset as u64),
        ("cookie", outcome.cookie.offset as u64),
        ("addresses", outcome.addresses as u64),
    ];
    fields.extend(outcome.address_offsets.map(|offset| ("offset", offset as u64)));
    fields.extend(outcome.address_families.map(|family| ("family", family.into())));
    Told { fields, octets: vec![outcome.cookie.octets.to_vec()], tables: None }
}

fn written(written: Written) -> Told {
    let fields = vec![
        ("number", written.number.into()),
        ("first", written.first.into()),
        ("length", written.length as u64),
    ];
    Told { fields, octets: vec![written.output], tables: None }
}

fn assessed(assessed: Assessed) -> Told {
    let fields = vec![
        ("number", assessed.number.into()),
        ("outcome", assessed.outcome.into()),
        ("payloads", assessed.payloads.into()),
        ("offset", assessed.offset.into()),
        ("ordinal", assessed.ordinal.into()),
        ("tally", assessed.tally.into()),
    ];
    Told { fields, octets: vec![assessed.handed_out.octets.to_vec()], tables: None }
}
