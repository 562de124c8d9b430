use unmavreth::limits::{REQUEST_ROOM, RESPONSE_ROOM};
use unmavreth::{write_check, Agreed, CheckResponse, Gateway, Number, Opening, Operator, Outcome, Pair, Request};

/// IKE_AUTH is done: opens the records of the IKE SA and of its first child SA, both or neither.
fn mobike_open(gateway: &mut Gateway, sa: &IkeSa) -> Result<(), Number> {
    let (mobike, cloning) = (sa.mobike.into(), sa.cloning.into());
    let agreed = Agreed { mobike, cloning, operator: sa.operator, peer: sa.client };
    let pair = Pair::between(sa.peer, sa.own);
    gateway.open(&Opening { spi: sa.own_spi, agreed, pair, child: sa.child_spi }).ok()
}

/// An INFORMATIONAL request came, and is authenticated and decrypted: handles it, sends the response, and if the
/// peer moved, a request that checks whether it can be reached there.
fn mobike_request(gateway: &mut Gateway, sa: &mut IkeSa, came: &IkeRequest) -> Result<(), Number> {
    let (spi, id, pair) = (sa.own_spi, came.id, Pair::between(came.from, came.to));
    let (nat_source, nat_destination) = (&came.nat_source[..], &came.nat_destination[..]);
    let (first, body) = (came.first, &came.payloads[..]);
    let (cookie, check_id, operator) = (&came.fresh[..], sa.next_id, sa.operator);
    let request = Request { spi, id, pair, nat_source, nat_destination, first, body, cookie, check_id, operator };
    let mut out = [0; RESPONSE_ROOM];
    let reply = gateway.handle(&request, &mut out);
    sa.respond(id, reply.first(), reply.response(&out)); // empty with 1 to 5; the guide says more
    let mut out = [0; REQUEST_ROOM];
    let check = write_check(&reply, &request, &mut out);
    if check.length() != 0 {
        sa.ask(check_id, check.first(), check.body(&out));
    }
    reply.number().ok()
}

/// The response to that check came: the IPsec records move, or the IKE SA is closed, for another cookie came back.
fn mobike_checked(gateway: &mut Gateway, sa: &mut IkeSa, came: &IkeResponse) -> Result<(), Number> {
    let (spi, id, first, body) = (sa.own_spi, came.id, came.first, &came.payloads[..]);
    let assessment = gateway.check(&CheckResponse { spi, id, first, body, operator: sa.operator });
    if assessment.outcome() == Outcome::Close {
        sa.close();
    }
    assessment.number().ok()
}
