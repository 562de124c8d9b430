//! Cloning an IKE SA: the clone is a record of its own, with what the original agreed on; each refusal in its
//! order leaves the table; the deletion mark; and what the two notifications are elsewhere.
mod common;
use common::*;
use unmavreth::{
    clone_ike, mark_deletion, read, write, write_clone, write_clone_supported, Address, Agreed,
    Ask, CloneRequest, Draft, Effect, Flag, Gateway, IkeRecord, Number, Opening, PendingCheck,
    Request,
};

const CLONING: Agreed = Agreed { cloning: Flag::YES, peer: 5, ..AGREED };

/// As the shared gateway, with cloning agreed for the first record, whose peer is 5. The other one's is 0.
fn cloning() -> Gateway {
    let mut gateway = gateway();
    gateway.ike[0].agreed = CLONING;
    gateway
}

/// A rekey of the IKE SA with CLONE_IKE_SA, as RFC 7791 has it: the notification, SA, nonce, key exchange.
fn came() -> (u8, Vec<u8>) {
    chain(&[notify(CLONE, &[]), bare(33), bare(40), bare(34)])
}

fn error(kind: u16) -> Vec<u8> {
    chain(&[notify(kind, &[])]).1
}

#[test]
fn a_clone_has_the_pair_and_the_agreements() {
    let mut gateway = cloning();
    let moved = chain(&[notify(UPDATE, &[]), notify(NO_ADDITIONAL, &[]), bare(200)]);
    assert_eq!(gateway.handle(&request(&moved), &mut [0; 128]).update(), Effect::Applied);
    let mut expected = gateway.clone();
    let mut out = [0xa5; 140];
    let reply = gateway.clone_ike(&clone_request(&came()), &mut out);
    assert_eq!((reply.number(), reply.first(), reply.payloads()), (Number::Done, 41, 4));
    assert_eq!((reply.offset(), reply.ordinal()), (0, 0));
    assert_eq!(reply.response(&out), error(CLONE));
    assert_eq!(out[8..], [0xa5; 132]);
    // The marks, the tally and the check of the original are not the clone's, nor are its IPsec records.
    expected.ike[2] = IkeRecord { spi: 9, agreed: CLONING, pair: NEW, ..IkeRecord::FREE };
    assert_eq!(gateway, expected);
    assert_eq!((gateway.of_peer(5, A).count(), gateway.owned(9).count()), (2, 0));
}

#[test]
fn each_moves_by_itself() {
    let mut gateway = cloning();
    assert_eq!(gateway.clone_ike(&clone_request(&came()), &mut [0; 128]).number(), Number::Done);
    assert_eq!(gateway.open_ipsec(90, 9, A), Number::Done);
    let update = chain(&[notify(UPDATE, &[])]);
    let reply = gateway.handle(&Request { spi: 9, ..request(&update) }, &mut [0; 128]);
    assert_eq!(reply.update(), Effect::Applied);
    assert_eq!((gateway.ike[0].pair, gateway.ike[2].pair), (OLD, NEW));
    assert_eq!((gateway.ike[0].update_mark, gateway.ike[2].update_mark), (0, 1));
    assert_eq!(gateway.close_ike(7, A), Number::Done);
    assert_eq!(gateway.ike[2].spi, 9);
    assert_eq!(gateway.ipsec_record(90).map(|record| record.owner), Some(9));
}

/// The request comes to this number and this response, and the table stays as it was.
fn refused(gateway: &Gateway, request: CloneRequest, length: usize, told: (Number, Vec<u8>)) {
    let mut after = gateway.clone();
    let mut out = vec![9; length];
    let reply = after.clone_ike(&request, &mut out);
    assert_eq!((reply.number(), reply.response(&out).to_vec()), told);
    assert_eq!(reply.first(), if reply.length() == 0 { 0 } else { 41 });
    assert!(out[usize::from(reply.length())..].iter().all(|&octet| octet == 9));
    assert_eq!(after, *gateway);
}

#[test]
fn refusals_in_their_order() {
    let mut gateway = cloning();
    gateway.ike[0].deleting = Flag::YES;
    let (rekey, cut, critical) =
        (chain(&[bare(33)]), (41, vec![0, 0, 0]), (200, vec![0, 0x80, 0, 4]));
    // Each has everything wrong that is checked after it: all places in use, the peer's limit, the SPI and the
    // operator's share too.
    for at in 2..32 {
        gateway.ike[at] = IkeRecord { spi: 100 + at as u64, agreed: CLONING, ..gateway.ike[0] };
    }
    let long = CloneRequest { new_spi: 8, body: &[0; 4097], ..clone_request(&cut) };
    let none = |number| (number, vec![]);
    refused(&gateway, CloneRequest { spi: 0, ..long }, 127, none(Number::BadArgument));
    refused(&gateway, CloneRequest { new_spi: 0, ..long }, 127, none(Number::BadArgument));
    refused(&gateway, CloneRequest { spi: 9, ..long }, 127, none(Number::OutputTooShort));
    refused(&gateway, CloneRequest { spi: 9, ..long }, 128, none(Number::BodyTooLong));
    let of = |came| CloneRequest { new_spi: 8, ..clone_request(came) };
    refused(&gateway, CloneRequest { spi: 9, ..of(&cut) }, 128, none(Number::NoSuchRecord));
    refused(&gateway, CloneRequest { spi: 8, ..of(&cut) }, 128, none(Number::CloningNotAgreed));
    refused(&gateway, of(&cut), 128, (Number::BadChainLength, error(7)));
    let told = (Number::UnknownCritical, chain(&[notify(1, &[200])]).1);
    refused(&gateway, of(&critical), 128, told);
    refused(&gateway, of(&rekey), 128, none(Number::NoCloneRequest));
    let came = came();
    refused(&gateway, of(&came), 128, (Number::CannotCloneNow, error(43)));
    gateway.ike[0].deleting = Flag::NO;
    refused(&gateway, of(&came), 128, (Number::CannotCloneNow, error(43)));
    assert_eq!(gateway.close_ike(131, A), Number::Done);
    refused(&gateway, of(&came), 128, (Number::PeerAtLimit, error(35)));
    gateway.ike[2..31].iter_mut().for_each(|record| record.agreed.peer = 6);
    refused(&gateway, of(&came), 128, none(Number::SpiInUse));
    refused(&gateway, clone_request(&came), 128, (Number::OperatorAtShare, error(35)));
    for spi in 102..131 {
        assert_eq!(gateway.close_ike(spi, A), Number::Done);
    }
    assert_eq!(gateway.clone_ike(&clone_request(&came), &mut [0; 128]).number(), Number::Done);
}

#[test]
fn payloads_are_counted_once_the_chain_is_read() {
    let mut gateway = cloning();
    let counted = |gateway: &mut Gateway, request: &CloneRequest| {
        gateway.clone_ike(request, &mut [0; 128]).payloads()
    };
    let (came, rekey) = (came(), chain(&[bare(33), bare(34)]));
    assert_eq!(counted(&mut gateway, &CloneRequest { spi: 8, ..clone_request(&came) }), 0);
    assert_eq!(counted(&mut gateway, &clone_request(&rekey)), 2);
    assert_eq!(counted(&mut gateway, &CloneRequest { new_spi: 8, ..clone_request(&came) }), 4);
    assert_eq!(gateway.mark_deletion(7, A), Number::Done);
    assert_eq!(counted(&mut gateway, &clone_request(&came)), 4);
}

#[test]
fn four_records_of_a_peer() {
    let mut gateway = cloning();
    for new_spi in [9, 10, 11] {
        let came = came();
        let request = CloneRequest { new_spi, ..clone_request(&came) };
        assert_eq!(gateway.clone_ike(&request, &mut [0; 128]).number(), Number::Done);
    }
    let came = came();
    for spi in [7, 9, 10, 11] {
        let fifth = CloneRequest { spi, new_spi: 12, ..clone_request(&came) };
        refused(&gateway, fifth, 128, (Number::PeerAtLimit, error(35)));
    }
    // One that is being deleted counts, one that is closed does not; openings have no such limit.
    assert_eq!(gateway.mark_deletion(11, A), Number::Done);
    let fifth = CloneRequest { new_spi: 12, ..clone_request(&came) };
    refused(&gateway, fifth, 128, (Number::PeerAtLimit, error(35)));
    let opening = Opening { spi: 13, agreed: CLONING, child: 130, ..OPENING };
    assert_eq!(gateway.open(&opening), Number::Done);
    assert_eq!(gateway.close_ike(13, A), Number::Done);
    assert_eq!(gateway.close_ike(11, A), Number::Done);
    assert_eq!(gateway.clone_ike(&fifth, &mut [0; 128]).number(), Number::Done);
}

/// Another peer's records do not count, whatever their number.
#[test]
fn peers_are_told_apart() {
    for (peer, other) in [(0, 1), (5, 6), (u32::MAX, 0), (1 << 31, 0)] {
        let mut gateway = Gateway::new();
        for spi in 1..9 {
            let agreed = Agreed { peer: if spi < 4 { peer } else { other }, ..CLONING };
            let opening = Opening { spi, agreed, pair: OLD, child: spi as u32 };
            assert_eq!(gateway.open(&opening), Number::Done);
        }
        let came = came();
        let third = CloneRequest { spi: 3, new_spi: 9, ..clone_request(&came) };
        assert_eq!(gateway.clone_ike(&third, &mut [0; 128]).number(), Number::Done);
        let third = CloneRequest { new_spi: 10, ..third };
        refused(&gateway, third, 128, (Number::PeerAtLimit, error(35)));
    }
}

#[test]
fn marking_the_deletion() {
    let mut gateway = cloning();
    let before = gateway.clone();
    assert_eq!(gateway.mark_deletion(0, A), Number::BadArgument);
    assert_eq!(gateway.mark_deletion(9, A), Number::NoSuchRecord);
    assert_eq!(gateway, before);
    for _ in 0..2 {
        assert_eq!(gateway.mark_deletion(7, A), Number::Done);
        let mut expected = before.clone();
        expected.ike[0].deleting = Flag::YES;
        assert_eq!(gateway, expected);
    }
    // Requests go on, and the mark with them; closing takes it away.
    let update = chain(&[notify(UPDATE, &[])]);
    assert_eq!(gateway.handle(&request(&update), &mut [0; 128]).update(), Effect::Applied);
    let mut mark = *gateway.ike;
    assert!(mark[0].deleting.is_set());
    assert_eq!(mark_deletion(&mut mark, 8, A), Number::Done);
    assert!(mark[1].deleting.is_set());
    assert_eq!(gateway.close_ike(7, A), Number::Done);
    assert_eq!(gateway.ike[0], IkeRecord::FREE);
}

/// A clone of a record is not being deleted, nor has what a free place may hold.
#[test]
fn nothing_of_a_free_place_stays() {
    let mut gateway = cloning();
    gateway.ike[1] = IkeRecord {
        spi: 0,
        agreed: Agreed { peer: 7, ..AGREED },
        pair: NEW,
        update_mark: 5,
        list_mark: 6,
        count: 16,
        addresses: [Address::ipv4([10, 0, 0, 1]); 16],
        unknown: 7,
        check: PendingCheck { length: 8, octets: [1; 64], id: 9 },
        deleting: Flag::YES,
    };
    let came = came();
    let reply = clone_ike(&mut gateway.ike, &clone_request(&came), &mut [0; 128]);
    assert_eq!(reply.number(), Number::Done);
    let clone = IkeRecord { spi: 9, agreed: CLONING, pair: OLD, ..IkeRecord::FREE };
    assert_eq!(gateway.ike[1], clone);
}

/// Yes or no of any octet is taken along as it stands.
#[test]
fn any_octet_but_0_is_yes() {
    for octet in 0..=255 {
        // SAFETY: a flag is an octet, and any is allowed.
        let flag = unsafe { std::mem::transmute::<u8, Flag>(octet) };
        let mut gateway = cloning();
        gateway.ike[0].agreed = Agreed { mobike: flag, cloning: flag, peer: 5, ..Agreed::NONE };
        let number = if octet != 0 { Number::Done } else { Number::CloningNotAgreed };
        let came = came();
        let told = gateway.clone_ike(&clone_request(&came), &mut [0; 128]);
        assert_eq!(told.number(), number);
        assert_eq!(gateway.ike[2].agreed == gateway.ike[0].agreed, octet != 0);
        let mut gateway = cloning();
        gateway.ike[0].deleting = flag;
        let number = if octet == 0 { Number::Done } else { Number::CannotCloneNow };
        let told = gateway.clone_ike(&clone_request(&came), &mut [0; 128]);
        assert_eq!(told.number(), number);
    }
}

#[test]
fn faults_of_the_two_notifications() {
    let told = |payloads: &[Payload]| {
        let came = chain(payloads);
        let reply = cloning().clone_ike(&clone_request(&came), &mut [0; 128]);
        (reply.number(), reply.offset(), reply.ordinal())
    };
    let with_spi = |kind: u16| (41, 0, [&[0, 1], &kind.to_be_bytes()[..], &[5]].concat());
    for kind in [CLONE, CLONE_SUPPORTED] {
        assert_eq!(told(&[bare(33), notify(kind, &[0])]), (Number::BadDataSize, 4, 1));
        assert_eq!(told(&[bare(33), with_spi(kind)]), (Number::BadNotify, 4, 1));
    }
    let twice = [notify(CLONE, &[]), notify(CLONE, &[]), notify(CLONE_SUPPORTED, &[])];
    assert_eq!(told(&twice), (Number::Done, 0, 0), "a second one is no fault");
    assert_eq!(told(&[notify(CLONE_SUPPORTED, &[])]), (Number::NoCloneRequest, 0, 0));
    let twice = [notify(CLONE, &[]), notify(UPDATE, &[]), notify(UPDATE, &[])];
    assert_eq!(told(&twice), (Number::Repeated, 16, 2), "others are read as everywhere");
}

/// In every other chain they are unknown, whatever they have.
#[test]
fn elsewhere_they_are_tallied() {
    let (first, body) = chain(&[notify(CLONE, &[1, 2]), notify(CLONE_SUPPORTED, &[])]);
    assert_eq!(read(first, &body).seen().tally.unknown_notifies, 2);
    let mut gateway = cloning();
    let reply = gateway.handle(&request(&(first, body)), &mut [0; 128]);
    assert_eq!((reply.number(), reply.length(), gateway.ike[0].unknown), (Number::Done, 0, 2));
}

#[test]
fn each_is_written_alone() {
    let mut out = [0; 564];
    let written = write_clone(&mut out);
    assert_eq!((written.number(), written.first(), written.length()), (Number::Done, 41, 8));
    assert_eq!(written.body(&out), [0, 0, 0, 8, 0, 0, 0x40, 0x31]);
    let body = written.body(&out);
    let request = CloneRequest { spi: 7, new_spi: 9, first: 41, body, operator: A };
    assert_eq!(cloning().clone_ike(&request, &mut [0; 128]).number(), Number::Done);
    let written = write_clone_supported(&mut out);
    assert_eq!((written.number(), written.first(), written.length()), (Number::Done, 41, 8));
    assert_eq!(written.body(&out), [0, 0, 0, 8, 0, 0, 0x40, 0x30]);
    for one in
        [Ask { clone: true, ..Ask::default() }, Ask { clone_supported: true, ..Ask::default() }]
    {
        for ask in [
            Ask { clone: true, clone_supported: true, ..one },
            Ask { update: true, ..one },
            Ask { no_nats: true, ..one },
            Ask { nat_source: true, nat_destination: true, ..one },
            Ask { no_additional: true, ..one },
            Ask { count: 1, ..one },
        ] {
            let [nat_source, nat_destination] = &VALUES;
            let addresses = [Address::ipv4([10, 0, 0, 1]); 16];
            let draft =
                Draft { ask, pair: NEW, addresses, nat_source, nat_destination, cookie: &[] };
            assert_eq!(write(&draft, &mut out).number(), Number::BadArgument, "{ask:?}");
        }
        let draft = Draft { ask: one, cookie: &COOKIE, ..Draft::default() };
        assert_eq!(write(&draft, &mut out).number(), Number::BadArgument);
    }
}
