// The inline functions of unmavreth_host.h: each gives what its exported call gives, with a null pointer of length 0 and
// with an output that nobody set; and what looks at records finds them.
#include <unmavreth_host.h>

#include "holds.h"

enum { SPI = 7, CHILD = 70, COOKIE_AT = 16, COOKIE_OCTETS = 8, CHECK_ID = 5 };
enum { A = UNMAVRETH_OPERATOR_A, B = UNMAVRETH_OPERATOR_B, NEITHER = 2 };

static const unmavreth_part nothing = {NULL, 0};
static const uint8_t cookie[COOKIE_OCTETS] = {1, 2, 3, 4, 5, 6, 7, 8};

// An update, both NAT detection values, NO_NATS_ALLOWED and a cookie, written by the library.
static size_t write_all(unmavreth_message *message, const unmavreth_part *sent)
{
    unmavreth_draft draft;
    memset(&draft, 0, sizeof draft);
    draft.ask.update = draft.ask.no_nats = draft.ask.nat_source = draft.ask.nat_destination = 1;
    draft.ask.count = 1;
    draft.pair.family = draft.addresses.list[0].family = 4;
    memset(draft.nat_source.octets, 0x51, sizeof draft.nat_source.octets);
    memset(draft.nat_destination.octets, 0x52, sizeof draft.nat_destination.octets);
    draft.cookie = *sent;
    const unmavreth_written written = unmavreth_write_draft(&draft, message);
    HOLDS(written.number == UNMAVRETH_DONE && written.first == UNMAVRETH_NOTIFY_PAYLOAD);
    return written.length;
}

static void try_reading(void)
{
    const unmavreth_part sent = {cookie, sizeof cookie};
    unmavreth_message message;
    const unmavreth_part body = {message.octets, write_all(&message, &sent)};
    const unmavreth_reading reading = unmavreth_read_part(UNMAVRETH_NOTIFY_PAYLOAD, body);
    HOLDS(reading.number == UNMAVRETH_DONE && reading.seen.update && reading.seen.list.count == 1);
    const unmavreth_part found = unmavreth_cookie_part(body, reading.seen.cookie, reading.seen.cookie_len);
    HOLDS(found.start == body.start + reading.seen.cookie && found.octets == sizeof cookie);
    HOLDS(memcmp(found.start, cookie, sizeof cookie) == 0);
    const unmavreth_part value = unmavreth_nat_value_part(body, reading.seen.nat_destination);
    HOLDS(value.octets == UNMAVRETH_NAT_OCTETS && value.start[0] == 0x52 && value.start[19] == 0x52);
    HOLDS(unmavreth_no_nats_part(body, &reading.seen).family == 4);
    HOLDS(unmavreth_addresses_part(body, &reading.seen).list[0].family == 4);
    HOLDS(unmavreth_assess_part(nothing, UNMAVRETH_NOTIFY_PAYLOAD, body).outcome == UNMAVRETH_OUTCOME_ACCEPTED);
    HOLDS(unmavreth_assess_part(sent, UNMAVRETH_NOTIFY_PAYLOAD, body).cookie == reading.seen.cookie);
    HOLDS(unmavreth_assess_part(sent, 0, nothing).outcome == UNMAVRETH_OUTCOME_CLOSE);
    HOLDS(write_all(&message, &nothing) == body.octets - UNMAVRETH_NOTIFY_HEADER - sizeof cookie);
}

// Nothing, lent as a null pointer of length 0, is read as an empty body.
static void try_nothing(void)
{
    unmavreth_seen none;
    memset(&none, 0, sizeof none);
    HOLDS(unmavreth_lent(nothing).start != NULL && unmavreth_lent(nothing).octets == 0);
    HOLDS(unmavreth_read_part(0, nothing).number == UNMAVRETH_DONE);
    HOLDS(unmavreth_read_part(UNMAVRETH_NOTIFY_PAYLOAD, nothing).number == UNMAVRETH_BAD_CHAIN_LENGTH);
    const unmavreth_part cookie = unmavreth_cookie_part(nothing, COOKIE_AT, COOKIE_OCTETS);
    HOLDS(cookie.start != NULL && cookie.octets == 0);
    HOLDS(unmavreth_nat_value_part(nothing, COOKIE_AT).octets == 0);
    HOLDS(unmavreth_no_nats_part(nothing, &none).family == 0);
    HOLDS(unmavreth_addresses_part(nothing, &none).list[0].family == 0);
    HOLDS(unmavreth_read_entry_part(nothing, 0).number == UNMAVRETH_CUT);
    static uint8_t out[UNMAVRETH_ENTRY_MOST];
    const uint64_t slots[UNMAVRETH_ENTRY_SLOTS] = {SPI, B};
    const unmavreth_entry_written entry = unmavreth_write_entry_part(UNMAVRETH_KIND_CLOSE_IKE, slots, nothing, out);
    HOLDS(entry.number == UNMAVRETH_DONE && entry.length == 3);
    const unmavreth_part trace = {out, entry.length};
    HOLDS(unmavreth_read_entry_part(trace, 0).slots[UNMAVRETH_CLOSE_IKE_SPI] == SPI);
    HOLDS(unmavreth_read_entry_part(trace, 0).slots[UNMAVRETH_CLOSE_IKE_OPERATOR] == B);
}

// A REDIRECT with a nonce, written, read and decided on; and a REDIRECTED_FROM.
static void try_redirects(void)
{
    static const uint8_t address[UNMAVRETH_IP4_OCTETS] = {192, 0, 2, 2};
    static const uint8_t octets[UNMAVRETH_NONCE_LEAST] = {9, 8, 7};
    const unmavreth_part identity = {address, sizeof address}, nonce = {octets, sizeof octets};
    unmavreth_redirect_data out;
    unmavreth_redirects record;
    memset(&record, 0, sizeof record);
    unmavreth_data_written written = unmavreth_write_redirect_part(UNMAVRETH_IP4_IDENTITY, identity, nonce, &out);
    const unmavreth_part data = {out.octets, written.length};
    HOLDS(written.number == UNMAVRETH_DONE && written.length == 2 + sizeof address + sizeof octets);
    const unmavreth_redirect read = unmavreth_read_redirect_part(data);
    HOLDS(read.number == UNMAVRETH_DONE && read.identity_type == UNMAVRETH_IP4_IDENTITY);
    HOLDS(read.identity.start == data.start + 2 && read.identity.octets == sizeof address);
    HOLDS(read.nonce.start == data.start + 6 && read.nonce.octets == sizeof octets);
    const unmavreth_redirect decided = unmavreth_decide_redirect_part(&record, UNMAVRETH_SA_INIT, nonce, 7, data);
    HOLDS(decided.number == UNMAVRETH_DONE && decided.identity.start == read.identity.start);
    HOLDS(decided.identity.octets == read.identity.octets && decided.nonce.start == read.nonce.start);
    HOLDS(decided.nonce.octets == read.nonce.octets && decided.identity_type == UNMAVRETH_IP4_IDENTITY);
    HOLDS(record.count == 1 && record.times[0] == 7);
    const unmavreth_redirect refused = unmavreth_decide_redirect_part(&record, UNMAVRETH_LAST_AUTH, nothing, 8, data);
    HOLDS(refused.number == UNMAVRETH_WRONG_EXCHANGE && refused.identity_type == 0);
    HOLDS(refused.identity.octets == 0 && refused.nonce.octets == 0 && record.count == 1);
    HOLDS(unmavreth_read_redirect_part(nothing).number == UNMAVRETH_BAD_REDIRECT);
    HOLDS(unmavreth_read_redirected_from_part(data).number == UNMAVRETH_BAD_REDIRECT);
    HOLDS(unmavreth_read_redirect_supported_part(data) == UNMAVRETH_BAD_REDIRECT);
    HOLDS(unmavreth_read_redirect_supported_part(nothing) == UNMAVRETH_DONE);
    HOLDS(unmavreth_write_redirected_from_part(UNMAVRETH_IP4_IDENTITY, nothing, &out).number == UNMAVRETH_BAD_REDIRECT);
    written = unmavreth_write_redirected_from_part(UNMAVRETH_IP4_IDENTITY, identity, &out);
    const unmavreth_part from = {out.octets, written.length};
    const unmavreth_redirect came = unmavreth_read_redirected_from_part(from);
    HOLDS(came.number == UNMAVRETH_DONE && came.identity_type == UNMAVRETH_IP4_IDENTITY && came.nonce.octets == 0);
    HOLDS(came.identity.octets == sizeof address && memcmp(came.identity.start, address, sizeof address) == 0);
}

static void try_gateway(void)
{
    static unmavreth_gateway gateway;
    unmavreth_opening opening;
    memset(&opening, 0, sizeof opening);
    opening.spi = SPI;
    opening.agreed.mobike = 1;
    opening.pair.family = 4;
    opening.child = CHILD;
    HOLDS(unmavreth_gateway_open(&gateway, &opening) == UNMAVRETH_DONE);
    HOLDS(unmavreth_gateway_open_ipsec(&gateway, CHILD + 1, SPI, A) == UNMAVRETH_DONE);
    HOLDS(unmavreth_gateway_open_ipsec(&gateway, CHILD, SPI, A) == UNMAVRETH_SPI_IN_USE);
    HOLDS(unmavreth_find_ike(&gateway, SPI) == &gateway.ike.records[0] && unmavreth_find_ike(&gateway, 0) == NULL);
    HOLDS(unmavreth_find_ipsec(&gateway, CHILD + 1) == &gateway.ipsec[1] && unmavreth_find_ipsec(&gateway, 0) == NULL);
    HOLDS(unmavreth_find_ike(&gateway, SPI + 1) == NULL && unmavreth_find_ipsec(&gateway, SPI) == NULL);
    HOLDS(unmavreth_next_owned(&gateway, SPI, 0) == 0 && unmavreth_next_owned(&gateway, SPI, 1) == 1);
    HOLDS(unmavreth_next_owned(&gateway, SPI, 2) == UNMAVRETH_IPSEC_PLACES);
    HOLDS(unmavreth_next_owned(&gateway, 0, 0) == UNMAVRETH_IPSEC_PLACES); // a free place has no owner
    unmavreth_rule rules[UNMAVRETH_RULES_MOST + 1];
    memset(rules, 0, sizeof rules);
    for (size_t i = 0; i < UNMAVRETH_RULES_MOST + 1; i++)
        rules[i].family = 4;
    HOLDS(unmavreth_gateway_set_policy(&gateway, rules, UNMAVRETH_RULES_MOST + 1, A) == UNMAVRETH_BAD_POLICY);
    HOLDS(unmavreth_gateway_set_policy(&gateway, rules, (size_t)UINT16_MAX + 1, A) == UNMAVRETH_BAD_POLICY);
    HOLDS(unmavreth_gateway_set_policy(&gateway, rules, UNMAVRETH_RULES_MOST, NEITHER) == UNMAVRETH_BAD_ARGUMENT);
    HOLDS(unmavreth_gateway_set_policy(&gateway, rules, UNMAVRETH_RULES_MOST, A) == UNMAVRETH_DONE);
    HOLDS(unmavreth_gateway_set_policy(&gateway, rules, 1, B) == UNMAVRETH_DONE && gateway.policies.of[B].count == 1);
    HOLDS(unmavreth_gateway_acceptable(&gateway, opening.pair, A));
    HOLDS(unmavreth_gateway_set_policy(&gateway, NULL, 0, A) == UNMAVRETH_DONE && gateway.policies.of[A].count == 0);
    HOLDS(!unmavreth_gateway_acceptable(&gateway, opening.pair, A));
    HOLDS(unmavreth_gateway_acceptable(&gateway, opening.pair, B));
    HOLDS(!unmavreth_gateway_acceptable(&gateway, opening.pair, NEITHER));
    unmavreth_request request; // with no payload, an empty request: it is handled, and answered by an empty response
    unmavreth_response response;
    memset(&request, 0, sizeof request);
    request.spi = SPI;
    request.pair.family = 4;
    HOLDS(unmavreth_gateway_handle(&gateway, &request, &response).number == UNMAVRETH_BAD_ARGUMENT);
    request.cookie.start = cookie; // which every request has
    request.cookie.octets = sizeof cookie;
    const unmavreth_reply reply = unmavreth_gateway_handle(&gateway, &request, &response);
    HOLDS(reply.number == UNMAVRETH_DONE && reply.first == 0 && reply.length == 0);
    request.operator_id = B;
    HOLDS(unmavreth_gateway_handle(&gateway, &request, &response).number == UNMAVRETH_NO_SUCH_RECORD);
    HOLDS(unmavreth_gateway_close_ipsec(&gateway, CHILD, B) == UNMAVRETH_NO_SUCH_RECORD);
    HOLDS(unmavreth_gateway_close_ipsec(&gateway, CHILD, A) == UNMAVRETH_DONE);
    HOLDS(unmavreth_next_owned(&gateway, SPI, 0) == 1);
    HOLDS(unmavreth_gateway_close_ike(&gateway, SPI, B) == UNMAVRETH_NO_SUCH_RECORD);
    HOLDS(unmavreth_gateway_close_ike(&gateway, SPI, A) == UNMAVRETH_DONE && unmavreth_find_ike(&gateway, SPI) == NULL);
}

// One operator opens as many as its share, and the other what is left of the places.
static void try_operators(void)
{
    static unmavreth_gateway gateway;
    unmavreth_opening opening;
    memset(&opening, 0, sizeof opening);
    opening.pair.family = 4;
    opening.agreed.operator_id = B;
    for (opening.spi = 1; opening.spi <= UNMAVRETH_IKE_SHARE; opening.spi++) {
        opening.child = (uint32_t)opening.spi;
        HOLDS(unmavreth_gateway_open(&gateway, &opening) == UNMAVRETH_DONE);
    }
    opening.child = (uint32_t)opening.spi;
    HOLDS(unmavreth_gateway_open(&gateway, &opening) == UNMAVRETH_OPERATOR_AT_SHARE);
    HOLDS(unmavreth_operator_ike_records(&gateway, B) == UNMAVRETH_IKE_SHARE);
    opening.agreed.operator_id = A;
    for (; opening.spi <= UNMAVRETH_IKE_PLACES; opening.spi++) {
        opening.child = (uint32_t)opening.spi;
        HOLDS(unmavreth_gateway_open(&gateway, &opening) == UNMAVRETH_DONE);
    }
    opening.child = (uint32_t)opening.spi;
    HOLDS(unmavreth_gateway_open(&gateway, &opening) == UNMAVRETH_FULL);
    HOLDS(unmavreth_operator_ike_records(&gateway, A) == UNMAVRETH_IKE_PLACES - UNMAVRETH_IKE_SHARE);
    for (uint32_t spi = 101; spi <= 100 + UNMAVRETH_IPSEC_SHARE - UNMAVRETH_IKE_SHARE; spi++)
        HOLDS(unmavreth_gateway_open_ipsec(&gateway, spi, 1, B) == UNMAVRETH_DONE);
    HOLDS(unmavreth_gateway_open_ipsec(&gateway, 100, 1, B) == UNMAVRETH_OPERATOR_AT_SHARE);
    HOLDS(unmavreth_operator_ipsec_records(&gateway, B) == UNMAVRETH_IPSEC_SHARE);
    HOLDS(unmavreth_operator_ipsec_records(&gateway, A) == UNMAVRETH_IKE_PLACES - UNMAVRETH_IKE_SHARE);
    HOLDS(unmavreth_operator_ike_records(&gateway, NEITHER) == 0);
    gateway.ipsec[0].owner = 1000; // which nobody has: the record is nobody's
    HOLDS(unmavreth_operator_ipsec_records(&gateway, B) == UNMAVRETH_IPSEC_SHARE - 1);
    HOLDS(unmavreth_gateway_close_ipsec(&gateway, 1, B) == UNMAVRETH_NO_SUCH_RECORD);
}

static void open_one(unmavreth_gateway *gateway, unmavreth_pair pair)
{
    unmavreth_opening opening;
    unmavreth_rule rule; // that matches every IPv4 pair
    memset(&opening, 0, sizeof opening);
    memset(&rule, 0, sizeof rule);
    opening.spi = SPI;
    opening.agreed.mobike = 1;
    opening.pair = pair;
    opening.child = CHILD;
    rule.family = 4;
    HOLDS(unmavreth_gateway_open(gateway, &opening) == UNMAVRETH_DONE);
    HOLDS(unmavreth_gateway_set_policy(gateway, &rule, 1, A) == UNMAVRETH_DONE);
}

static unmavreth_request update_from(unmavreth_pair pair)
{
    static const uint8_t update[] = {0, 0, 0, 8, 0, 0, 0x40, 0x10};
    unmavreth_request request;
    memset(&request, 0, sizeof request);
    request.spi = SPI;
    request.pair = pair;
    request.first = UNMAVRETH_NOTIFY_PAYLOAD;
    request.body.start = update;
    request.body.octets = sizeof update;
    request.cookie.start = cookie;
    request.cookie.octets = sizeof cookie;
    request.check_id = CHECK_ID;
    return request;
}

// An applied update is checked: the check is written, and its response, with the cookie in it or empty, gives this
// outcome.
static void try_check(bool copied, uint8_t outcome)
{
    unmavreth_gateway gateway;
    unmavreth_response response;
    unmavreth_message message;
    unmavreth_check_response came;
    unmavreth_pair old, now;
    memset(&gateway, 0, sizeof gateway);
    memset(&came, 0, sizeof came);
    memset(&old, 0, sizeof old);
    old.family = 4;
    now = old;
    now.source[0] = 10;
    open_one(&gateway, old);
    const unmavreth_request request = update_from(now);
    unmavreth_reply reply = unmavreth_gateway_handle(&gateway, &request, &response);
    HOLDS(reply.update == UNMAVRETH_UPDATE_APPLIED && gateway.ike.records[0].check.id == CHECK_ID);
    HOLDS(unmavreth_same_pair(&gateway.ipsec[0].pair, &old));
    const unmavreth_written written = unmavreth_write_check(&reply, &request, &message);
    HOLDS(written.first == UNMAVRETH_NOTIFY_PAYLOAD && written.length == UNMAVRETH_NOTIFY_HEADER + sizeof cookie);
    HOLDS(memcmp(message.octets + UNMAVRETH_NOTIFY_HEADER, cookie, sizeof cookie) == 0);
    came.spi = SPI;
    came.id = CHECK_ID;
    came.first = copied ? written.first : (uint8_t)0;
    came.body.start = copied ? message.octets : NULL;
    came.body.octets = copied ? written.length : 0;
    came.operator_id = B;
    HOLDS(unmavreth_gateway_check(&gateway, &came).number == UNMAVRETH_NO_SUCH_RECORD);
    came.operator_id = A;
    HOLDS(unmavreth_gateway_check(&gateway, &came).outcome == outcome);
    HOLDS((unmavreth_find_ike(&gateway, SPI) != NULL) == copied);
    HOLDS(!copied || unmavreth_same_pair(&gateway.ipsec[0].pair, &now));
    reply.update = UNMAVRETH_UPDATE_STALE;
    HOLDS(unmavreth_write_check(&reply, &request, &message).length == 0);
}

// A record is cloned as SPI + 1 by what the library writes, once; then both being there, and the mark, are told.
static void try_clone(void)
{
    static unmavreth_gateway gateway;
    unmavreth_pair pair;
    unmavreth_clone_request request;
    unmavreth_response response;
    unmavreth_message message;
    memset(&pair, 0, sizeof pair);
    memset(&request, 0, sizeof request);
    pair.family = 4;
    open_one(&gateway, pair);
    request.spi = SPI;
    request.new_spi = SPI + 1;
    HOLDS(unmavreth_gateway_clone(&gateway, &request, &response).number == UNMAVRETH_CLONING_NOT_AGREED);
    gateway.ike.records[0].agreed.cloning = 1;
    HOLDS(unmavreth_gateway_clone(&gateway, &request, &response).number == UNMAVRETH_NO_CLONE_REQUEST); // empty, lent as null
    unmavreth_written written = unmavreth_write_clone_supported(&message);
    HOLDS(written.number == UNMAVRETH_DONE && written.length == UNMAVRETH_NOTIFY_HEADER && message.octets[7] == 0x30);
    written = unmavreth_write_clone(&message);
    HOLDS(written.number == UNMAVRETH_DONE && written.length == UNMAVRETH_NOTIFY_HEADER && message.octets[7] == 0x31);
    request.first = written.first;
    request.body.start = message.octets;
    request.body.octets = written.length;
    HOLDS(unmavreth_peer_records(&gateway, 0, A) == 1 && unmavreth_peer_records(&gateway, 1, A) == 0);
    HOLDS(unmavreth_peer_records(&gateway, 0, B) == 0);
    request.operator_id = B;
    HOLDS(unmavreth_gateway_clone(&gateway, &request, &response).number == UNMAVRETH_NO_SUCH_RECORD);
    request.operator_id = A;
    const unmavreth_clone_reply reply = unmavreth_gateway_clone(&gateway, &request, &response);
    HOLDS(reply.number == UNMAVRETH_DONE && reply.first == written.first && reply.length == written.length);
    HOLDS(reply.payloads == 1 && memcmp(response.octets, message.octets, reply.length) == 0);
    HOLDS(unmavreth_find_ike(&gateway, SPI + 1) == &gateway.ike.records[1]);
    HOLDS(unmavreth_peer_records(&gateway, 0, A) == 2);
    HOLDS(unmavreth_gateway_clone(&gateway, &request, &response).number == UNMAVRETH_SPI_IN_USE);
    HOLDS(unmavreth_gateway_mark_deletion(&gateway, SPI + 2, A) == UNMAVRETH_NO_SUCH_RECORD);
    HOLDS(unmavreth_gateway_mark_deletion(&gateway, SPI, B) == UNMAVRETH_NO_SUCH_RECORD);
    HOLDS(unmavreth_gateway_mark_deletion(&gateway, SPI, A) == UNMAVRETH_DONE && gateway.ike.records[0].deleting == 1);
    HOLDS(unmavreth_gateway_clone(&gateway, &request, &response).number == UNMAVRETH_CANNOT_CLONE_NOW);
}

int main(void)
{
    HOLDS(unmavreth_interface() == UNMAVRETH_INTERFACE);
    try_reading();
    try_redirects();
    try_nothing();
    try_gateway();
    try_operators();
    try_check(true, UNMAVRETH_OUTCOME_ACCEPTED);
    try_check(false, UNMAVRETH_OUTCOME_CLOSE);
    try_clone();
    return 0;
}
