// The calls of unmavreth.h in the form that a host writes them, for C11 and C++11: inline functions over the exported
// calls, with a struct for what has many arguments, to be filled with designated initialisers. Lengths that can only
// be one are not asked for, a null pointer with length 0 is allowed, and what is handed out is given back. Each gives
// what the call that its comment names gives; the numbers and what they leave stand there, in unmavreth.h.
//
// A struct of arguments grows at its end with the calls. What an initialiser does not name is 0.
#ifndef UNMAVRETH_HOST_H
#define UNMAVRETH_HOST_H

#include <string.h>

#include "unmavreth.h"

// ---------------------------------------------------------------------------------------------------------- arguments

// What a gateway owns and lends. All zeros is the beginning: no record, and for each operator a policy to which nothing
// is acceptable. A host with one operator leaves operator_id at 0 everywhere, and is refused (43) at this one's share.
typedef struct unmavreth_gateway {
    unmavreth_ike_table ike;
    unmavreth_ipsec ipsec[UNMAVRETH_IPSEC_PLACES];
    unmavreth_policies policies;
} unmavreth_gateway;

// A NAT detection value.
typedef struct unmavreth_nat {
    uint8_t octets[UNMAVRETH_NAT_OCTETS];
} unmavreth_nat;

// A request as it came: authenticated, decrypted, and within the message window.
typedef struct unmavreth_request {
    uint64_t spi;                  // the gateway's SPI of the IKE SA
    uint32_t id;                   // its message ID
    unmavreth_pair pair;           // the addresses and ports of the packet
    unmavreth_nat nat_source;      // the gateway's values for the response
    unmavreth_nat nat_destination;
    uint8_t first;                 // the type of the first payload
    unmavreth_part body;           // the payloads
    unmavreth_part cookie;         // 8 to 64 octets, for the check that an applied update asks for
    uint32_t check_id;             // the message ID of the gateway's next request, which that check would have
    uint8_t operator_id;           // whose the IKE SA is
} unmavreth_request;

// Where a response goes; unmavreth_reply has its first type and its length.
typedef struct unmavreth_response {
    uint8_t octets[UNMAVRETH_RESPONSE_ROOM];
} unmavreth_response;

// A request of the initiator's end to write: what it carries, and that for what is asked for.
typedef struct unmavreth_draft {
    unmavreth_ask ask;
    unmavreth_pair pair;
    unmavreth_addresses_list addresses;
    unmavreth_nat nat_source;
    unmavreth_nat nat_destination;
    unmavreth_part cookie; // 8 to 64 octets; 0 octets for none
} unmavreth_draft;

// Where a written request goes; unmavreth_written has its first type and its length.
typedef struct unmavreth_message {
    uint8_t octets[UNMAVRETH_REQUEST_ROOM];
} unmavreth_message;

// A response to a check of the gateway's as it came: authenticated, decrypted, and to a request that is under way.
typedef struct unmavreth_check_response {
    uint64_t spi;        // the gateway's SPI of the IKE SA
    uint32_t id;         // its message ID
    uint8_t first;       // the type of the first payload
    unmavreth_part body; // the payloads
    uint8_t operator_id; // whose the IKE SA is
} unmavreth_check_response;

// A request to clone an IKE SA as it came: a rekey of it, authenticated, decrypted, and within the message window. Its
// response goes to an unmavreth_response; unmavreth_clone_reply has the first type and the length.
typedef struct unmavreth_clone_request {
    uint64_t spi;        // the gateway's SPI of the IKE SA that it came in
    uint64_t new_spi;    // the SPI that the gateway draws for the new one
    uint8_t first;       // the type of the first payload
    unmavreth_part body; // the payloads
    uint8_t operator_id; // whose the IKE SA is, and the new one
} unmavreth_clone_request;

// A part as the exported calls take it: no pointer is null there, not even with length 0.
static inline unmavreth_part unmavreth_lent(unmavreth_part part)
{
    static const uint8_t nothing = 0;
    if (part.start == NULL && part.octets == 0)
        part.start = &nothing;
    return part;
}

// --------------------------------------------------------------------------------------------------------- a gateway

// As unmavreth_open; the operator is in what is agreed.
UNMAVRETH_MUST_USE
static inline uint8_t unmavreth_gateway_open(unmavreth_gateway *gateway, const unmavreth_opening *opening)
{
    return unmavreth_open(&gateway->ike, gateway->ipsec, UNMAVRETH_IPSEC_PLACES, *opening);
}

// As unmavreth_open_ipsec.
UNMAVRETH_MUST_USE
static inline uint8_t unmavreth_gateway_open_ipsec(unmavreth_gateway *gateway, uint32_t spi, uint64_t owner,
                                                   uint8_t operator_id)
{
    return unmavreth_open_ipsec(&gateway->ike, gateway->ipsec, UNMAVRETH_IPSEC_PLACES, spi, owner, operator_id);
}

// As unmavreth_close_ike.
UNMAVRETH_MUST_USE
static inline uint8_t unmavreth_gateway_close_ike(unmavreth_gateway *gateway, uint64_t spi, uint8_t operator_id)
{
    return unmavreth_close_ike(&gateway->ike, gateway->ipsec, UNMAVRETH_IPSEC_PLACES, spi, operator_id);
}

// As unmavreth_close_ipsec.
UNMAVRETH_MUST_USE
static inline uint8_t unmavreth_gateway_close_ipsec(unmavreth_gateway *gateway, uint32_t spi, uint8_t operator_id)
{
    return unmavreth_close_ipsec(&gateway->ike, gateway->ipsec, UNMAVRETH_IPSEC_PLACES, spi, operator_id);
}

// As unmavreth_mark_deletion.
UNMAVRETH_MUST_USE
static inline uint8_t unmavreth_gateway_mark_deletion(unmavreth_gateway *gateway, uint64_t spi, uint8_t operator_id)
{
    return unmavreth_mark_deletion(&gateway->ike, spi, operator_id);
}

// As unmavreth_set_policy, with all of these rules; over 16 of them are refused there.
UNMAVRETH_MUST_USE
static inline uint8_t unmavreth_gateway_set_policy(unmavreth_gateway *gateway, const unmavreth_rule *rules,
                                                   size_t count, uint8_t operator_id)
{
    unmavreth_rules places;
    memset(&places, 0, sizeof places);
    for (size_t i = 0; i < count && i < UNMAVRETH_RULES_MOST; i++)
        places.rules[i] = rules[i];
    return unmavreth_set_policy(&gateway->policies, (uint16_t)(count < UINT16_MAX ? count : UINT16_MAX), &places,
                                operator_id);
}

// As unmavreth_acceptable.
UNMAVRETH_MUST_USE
static inline bool unmavreth_gateway_acceptable(const unmavreth_gateway *gateway, unmavreth_pair pair,
                                                uint8_t operator_id)
{
    return unmavreth_acceptable(&gateway->policies, pair, operator_id);
}

// As unmavreth_handle.
UNMAVRETH_MUST_USE
static inline unmavreth_reply unmavreth_gateway_handle(unmavreth_gateway *gateway, const unmavreth_request *request,
                                                       unmavreth_response *response)
{
    const unmavreth_part body = unmavreth_lent(request->body), cookie = unmavreth_lent(request->cookie);
    return unmavreth_handle(&gateway->ike, gateway->ipsec, UNMAVRETH_IPSEC_PLACES, &gateway->policies, request->spi,
                            request->id, request->pair, request->nat_source.octets, UNMAVRETH_NAT_OCTETS,
                            request->nat_destination.octets, UNMAVRETH_NAT_OCTETS, cookie.start, cookie.octets,
                            request->check_id, request->first, body.start, body.octets, response->octets,
                            UNMAVRETH_RESPONSE_ROOM, request->operator_id);
}

// As unmavreth_check.
UNMAVRETH_MUST_USE
static inline unmavreth_assessment unmavreth_gateway_check(unmavreth_gateway *gateway,
                                                           const unmavreth_check_response *response)
{
    const unmavreth_part body = unmavreth_lent(response->body);
    return unmavreth_check(&gateway->ike, gateway->ipsec, UNMAVRETH_IPSEC_PLACES, response->spi, response->id,
                           response->first, body.start, body.octets, response->operator_id);
}

// As unmavreth_clone.
UNMAVRETH_MUST_USE
static inline unmavreth_clone_reply unmavreth_gateway_clone(unmavreth_gateway *gateway,
                                                            const unmavreth_clone_request *request,
                                                            unmavreth_response *response)
{
    const unmavreth_part body = unmavreth_lent(request->body);
    return unmavreth_clone(&gateway->ike, request->spi, request->new_spi, request->first, body.start, body.octets,
                           response->octets, UNMAVRETH_RESPONSE_ROOM, request->operator_id);
}

// ------------------------------------------------------------------------------------------------- looking at records

// The IKE record with this SPI, at the lowest place if there are several; NULL if there is none, or the SPI is 0.
static inline const unmavreth_ike *unmavreth_find_ike(const unmavreth_gateway *gateway, uint64_t spi)
{
    for (size_t at = 0; spi != 0 && at < UNMAVRETH_IKE_PLACES; at++)
        if (gateway->ike.records[at].spi == spi)
            return &gateway->ike.records[at];
    return NULL;
}

// The IPsec record with this SPI, likewise.
static inline const unmavreth_ipsec *unmavreth_find_ipsec(const unmavreth_gateway *gateway, uint32_t spi)
{
    for (size_t at = 0; spi != 0 && at < UNMAVRETH_IPSEC_PLACES; at++)
        if (gateway->ipsec[at].spi == spi)
            return &gateway->ipsec[at];
    return NULL;
}

// How many IKE records in use are of this operator and have this peer number: a clone of one of them is refused at
// UNMAVRETH_PEER_RECORDS_MOST.
static inline size_t unmavreth_peer_records(const unmavreth_gateway *gateway, uint32_t peer, uint8_t operator_id)
{
    size_t records = 0;
    for (size_t at = 0; at < UNMAVRETH_IKE_PLACES; at++) {
        const unmavreth_ike *record = &gateway->ike.records[at];
        if (record->spi != 0 && record->agreed.operator_id == operator_id && record->agreed.peer == peer)
            records++;
    }
    return records;
}

// How many IKE records in use are of this operator: a further one is refused at UNMAVRETH_IKE_SHARE.
static inline size_t unmavreth_operator_ike_records(const unmavreth_gateway *gateway, uint8_t operator_id)
{
    size_t records = 0;
    for (size_t at = 0; at < UNMAVRETH_IKE_PLACES; at++)
        if (gateway->ike.records[at].spi != 0 && gateway->ike.records[at].agreed.operator_id == operator_id)
            records++;
    return records;
}

// How many IPsec records in use are of this operator, by the IKE record that owns each: a further one is refused at
// UNMAVRETH_IPSEC_SHARE.
static inline size_t unmavreth_operator_ipsec_records(const unmavreth_gateway *gateway, uint8_t operator_id)
{
    size_t records = 0;
    for (size_t at = 0; at < UNMAVRETH_IPSEC_PLACES; at++) {
        const unmavreth_ipsec *record = &gateway->ipsec[at];
        const unmavreth_ike *owner = record->spi != 0 ? unmavreth_find_ike(gateway, record->owner) : NULL;
        if (owner != NULL && owner->agreed.operator_id == operator_id)
            records++;
    }
    return records;
}

// Whether two pairs are the same, field by field: a pair has an octet of padding.
static inline bool unmavreth_same_pair(const unmavreth_pair *a, const unmavreth_pair *b)
{
    return a->family == b->family && memcmp(a->source, b->source, sizeof a->source) == 0 &&
           memcmp(a->destination, b->destination, sizeof a->destination) == 0 && a->source_port == b->source_port &&
           a->destination_port == b->destination_port;
}

// The first place from `from` on of an IPsec record in use that this IKE record owns; UNMAVRETH_IPSEC_PLACES if there
// is none. A check that is accepted moves exactly these:
//     for (size_t at = unmavreth_next_owned(g, spi, 0); at < UNMAVRETH_IPSEC_PLACES;
//          at = unmavreth_next_owned(g, spi, at + 1))
static inline size_t unmavreth_next_owned(const unmavreth_gateway *gateway, uint64_t owner, size_t from)
{
    for (size_t at = from; at < UNMAVRETH_IPSEC_PLACES; at++)
        if (gateway->ipsec[at].spi != 0 && gateway->ipsec[at].owner == owner)
            return at;
    return UNMAVRETH_IPSEC_PLACES;
}

// The first place from `from` on whose IPsec record moved: `before`, a copy of all 128 that the host took, has the same
// record there with another pair. UNMAVRETH_IPSEC_PLACES if there is none. For a host whose kernel asks for the old
// addresses: before[at].pair has them, gateway->ipsec[at].pair the new ones.
static inline size_t unmavreth_next_moved(const unmavreth_ipsec *before, const unmavreth_gateway *gateway, size_t from)
{
    for (size_t at = from; at < UNMAVRETH_IPSEC_PLACES; at++) {
        const unmavreth_ipsec *was = &before[at], *is = &gateway->ipsec[at];
        const bool is_same = is->spi != 0 && is->spi == was->spi && is->owner == was->owner;
        if (is_same && !unmavreth_same_pair(&was->pair, &is->pair))
            return at;
    }
    return UNMAVRETH_IPSEC_PLACES;
}

// ---------------------------------------------------------------------------------------------------- reading a chain

// As unmavreth_read.
UNMAVRETH_MUST_USE
static inline unmavreth_reading unmavreth_read_part(uint8_t first, unmavreth_part body)
{
    body = unmavreth_lent(body);
    return unmavreth_read(first, body.start, body.octets);
}

// As unmavreth_cookie, which asks for an output that is set.
UNMAVRETH_MUST_USE
static inline unmavreth_part unmavreth_cookie_part(unmavreth_part body, uint16_t cookie, uint16_t cookie_len)
{
    unmavreth_part out = unmavreth_lent(body);
    body = out;
    out.octets = 0;
    unmavreth_cookie(&out, body.start, body.octets, cookie, cookie_len);
    return out;
}

// As unmavreth_nat_value, likewise.
UNMAVRETH_MUST_USE
static inline unmavreth_part unmavreth_nat_value_part(unmavreth_part body, uint16_t offset)
{
    unmavreth_part out = unmavreth_lent(body);
    body = out;
    out.octets = 0;
    unmavreth_nat_value(&out, body.start, body.octets, offset);
    return out;
}

// As unmavreth_no_nats, of what was seen in the body.
UNMAVRETH_MUST_USE
static inline unmavreth_pair unmavreth_no_nats_part(unmavreth_part body, const unmavreth_seen *seen)
{
    body = unmavreth_lent(body);
    return unmavreth_no_nats(body.start, body.octets, seen->no_nats, seen->no_nats_len);
}

// As unmavreth_addresses, likewise.
UNMAVRETH_MUST_USE
static inline unmavreth_addresses_list unmavreth_addresses_part(unmavreth_part body, const unmavreth_seen *seen)
{
    body = unmavreth_lent(body);
    return unmavreth_addresses(body.start, body.octets, seen->list);
}

// --------------------------------------------------------------------------------------------------- writing requests

// As unmavreth_write.
UNMAVRETH_MUST_USE
static inline unmavreth_written unmavreth_write_draft(const unmavreth_draft *draft, unmavreth_message *message)
{
    const unmavreth_part cookie = unmavreth_lent(draft->cookie);
    return unmavreth_write(draft->ask, draft->pair, draft->addresses, draft->nat_source.octets, UNMAVRETH_NAT_OCTETS,
                           draft->nat_destination.octets, UNMAVRETH_NAT_OCTETS, cookie.start, cookie.octets,
                           message->octets, UNMAVRETH_REQUEST_ROOM);
}

// As unmavreth_write: the return routability check that the reply to this request asks for, COOKIE2 with the request's
// cookie and nothing else. Its message ID is the request's check_id. Nothing is written unless the update was applied:
// the first type and the length are 0 then.
UNMAVRETH_MUST_USE
static inline unmavreth_written unmavreth_write_check(const unmavreth_reply *reply, const unmavreth_request *request,
                                                      unmavreth_message *message)
{
    unmavreth_draft draft;
    memset(&draft, 0, sizeof draft);
    if (reply->update == UNMAVRETH_UPDATE_APPLIED)
        draft.cookie = request->cookie;
    return unmavreth_write_draft(&draft, message);
}

// As unmavreth_write: CLONE_IKE_SA_SUPPORTED and nothing else, for the host's IKE_AUTH message.
UNMAVRETH_MUST_USE
static inline unmavreth_written unmavreth_write_clone_supported(unmavreth_message *message)
{
    unmavreth_draft draft;
    memset(&draft, 0, sizeof draft);
    draft.ask.clone_supported = 1;
    return unmavreth_write_draft(&draft, message);
}

// As unmavreth_write: CLONE_IKE_SA and nothing else, for the host's CREATE_CHILD_SA request that rekeys the IKE SA.
UNMAVRETH_MUST_USE
static inline unmavreth_written unmavreth_write_clone(unmavreth_message *message)
{
    unmavreth_draft draft;
    memset(&draft, 0, sizeof draft);
    draft.ask.clone = 1;
    return unmavreth_write_draft(&draft, message);
}

// ------------------------------------------------------------------------------------------------ the initiator's end

// As unmavreth_assess.
UNMAVRETH_MUST_USE
static inline unmavreth_assessment unmavreth_assess_part(unmavreth_part sent, uint8_t first, unmavreth_part body)
{
    sent = unmavreth_lent(sent);
    body = unmavreth_lent(body);
    return unmavreth_assess(sent.start, sent.octets, first, body.start, body.octets);
}

// ------------------------------------------------------------------------------------------------------------- traces

// As unmavreth_read_entry.
UNMAVRETH_MUST_USE
static inline unmavreth_entry_read unmavreth_read_entry_part(unmavreth_part trace, size_t at)
{
    trace = unmavreth_lent(trace);
    return unmavreth_read_entry(trace.start, trace.octets, at);
}

// As unmavreth_write_entry; the output has UNMAVRETH_ENTRY_MOST octets, room for any entry.
UNMAVRETH_MUST_USE
static inline unmavreth_entry_written unmavreth_write_entry_part(uint8_t kind,
                                                                 const uint64_t slots[UNMAVRETH_ENTRY_SLOTS],
                                                                 unmavreth_part source,
                                                                 uint8_t out[UNMAVRETH_ENTRY_MOST])
{
    source = unmavreth_lent(source);
    return unmavreth_write_entry(kind, slots, source.start, source.octets, out, UNMAVRETH_ENTRY_MOST);
}

// ---------------------------------------------------------------------------------------------------------- redirects

// What the data of a REDIRECT or a REDIRECTED_FROM says. With every number but 0 the type is 0 and both parts are
// empty.
typedef struct unmavreth_redirect {
    uint8_t number;
    uint8_t identity_type;   // enum unmavreth_identity
    unmavreth_part identity; // a part of the data, as the nonce is
    unmavreth_part nonce;    // 0 octets: none
} unmavreth_redirect;

// Where the data of one goes; unmavreth_data_written has its length.
typedef struct unmavreth_redirect_data {
    uint8_t octets[UNMAVRETH_REDIRECT_ROOM];
} unmavreth_redirect_data;

// As unmavreth_read_redirect, which asks for outputs that are set.
UNMAVRETH_MUST_USE
static inline unmavreth_redirect unmavreth_read_redirect_part(unmavreth_part data)
{
    unmavreth_redirect out;
    data = unmavreth_lent(data);
    out.identity = out.nonce = data;
    const unmavreth_gateway_read read =
        unmavreth_read_redirect(&out.identity, &out.nonce, data.start, data.octets);
    out.number = read.number;
    out.identity_type = read.identity_type;
    return out;
}

// As unmavreth_read_redirected_from, likewise; there is no nonce.
UNMAVRETH_MUST_USE
static inline unmavreth_redirect unmavreth_read_redirected_from_part(unmavreth_part data)
{
    unmavreth_redirect out;
    data = unmavreth_lent(data);
    out.identity = out.nonce = data;
    out.nonce.octets = 0;
    const unmavreth_gateway_read read = unmavreth_read_redirected_from(&out.identity, data.start, data.octets);
    out.number = read.number;
    out.identity_type = read.identity_type;
    return out;
}

// As unmavreth_read_redirect_supported.
UNMAVRETH_MUST_USE
static inline uint8_t unmavreth_read_redirect_supported_part(unmavreth_part data)
{
    data = unmavreth_lent(data);
    return unmavreth_read_redirect_supported(data.start, data.octets);
}

// As unmavreth_write_redirect.
UNMAVRETH_MUST_USE
static inline unmavreth_data_written unmavreth_write_redirect_part(uint8_t identity_type, unmavreth_part identity,
                                                                   unmavreth_part nonce, unmavreth_redirect_data *out)
{
    identity = unmavreth_lent(identity);
    nonce = unmavreth_lent(nonce);
    return unmavreth_write_redirect(identity_type, identity.start, identity.octets, nonce.start, nonce.octets,
                                    out->octets, UNMAVRETH_REDIRECT_ROOM);
}

// As unmavreth_write_redirected_from.
UNMAVRETH_MUST_USE
static inline unmavreth_data_written unmavreth_write_redirected_from_part(uint8_t identity_type,
                                                                          unmavreth_part identity,
                                                                          unmavreth_redirect_data *out)
{
    identity = unmavreth_lent(identity);
    return unmavreth_write_redirected_from(identity_type, identity.start, identity.octets, out->octets,
                                           UNMAVRETH_REDIRECT_ROOM);
}

// As unmavreth_decide_redirect, on a record as a whole.
UNMAVRETH_MUST_USE
static inline unmavreth_redirect unmavreth_decide_redirect_part(unmavreth_redirects *record, uint8_t exchange,
                                                                unmavreth_part sent, uint64_t time,
                                                                unmavreth_part data)
{
    unmavreth_redirect out;
    sent = unmavreth_lent(sent);
    data = unmavreth_lent(data);
    out.identity = out.nonce = data;
    const unmavreth_redirect_decision decision =
        unmavreth_decide_redirect(&record->count, record->times, &out.identity, exchange, sent.start, sent.octets,
                                  time, data.start, data.octets);
    out.number = decision.number;
    out.identity_type = decision.identity_type;
    out.nonce.start = data.start + (data.octets - decision.nonce_len); // what stands behind the identity, to the end
    out.nonce.octets = decision.nonce_len;
    return out;
}

#endif
