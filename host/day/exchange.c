// Plays one exchange: lends the request to the gateway, prints and checks the answer, and has the response assessed.
#include "exchange.h"

#include <string.h>

#include "address.h"
#include "out.h"
#include "unmavreth_words.h"

exchange exchange_new(const day *d, uint32_t id, unmavreth_pair packet, uint16_t payloads)
{
    exchange x = {.spi = OUR_SPI, .id = id, .packet = packet, .payloads = payloads, .after = d->gateway.tables};
    // A host draws a cookie that nobody can guess; here its last octet is the request's ID, so that no two are equal.
    x.check = (own_check){.id = d->own_id, .cookie = {0x9a, 0x7e, 0xaa, 0x40, [COOKIE_OCTETS - 1] = (uint8_t)id}};
    x.outcome = UNMAVRETH_OUTCOME_ACCEPTED;
    return x;
}

void expect_applied(exchange *x, size_t ike_place)
{
    unmavreth_ike *record = &x->after.ike.records[ike_place];
    x->update = UNMAVRETH_UPDATE_APPLIED;
    record->update_mark = mark_of(x->id);
    record->pair = x->packet;
    record->check = pending_expected(x->check.cookie, sizeof x->check.cookie, x->check.id);
}

static void print_request(const exchange *x)
{
    char packet[PAIR_TEXT];
    pair_text(packet, &x->packet);
    out("  ");
    out_wrapped(PLAIN, 2, 4, "Request, message ID %u, in a packet %s", (unsigned)x->id, packet);
    out("    first payload's type %u, %zu octets\n", x->sent.request.first, x->sent.request.length);
    print_message(&x->sent.request);
}

// What the request says of addresses, read by the library from the same octets.
static void print_read(const message *m)
{
    unmavreth_reading r = unmavreth_read(m->first, m->octets, m->length);
    if (r.seen.no_nats != 0) {
        char text[PAIR_TEXT];
        unmavreth_pair claimed = unmavreth_no_nats(m->octets, m->length, r.seen.no_nats, r.seen.no_nats_len);
        pair_text(text, &claimed);
        out("    NO_NATS_ALLOWED says %s\n", text);
    }
    unmavreth_addresses_list addresses = unmavreth_addresses(m->octets, m->length, r.seen.list);
    for (size_t i = 0; i < r.seen.list.count && i < UNMAVRETH_ADDRESSES_MOST; i++) {
        char text[ADDRESS_TEXT];
        address_text(text, addresses.list[i].family, addresses.list[i].octets);
        out("    additional address %s\n", text);
    }
}

static void print_part(const char *what, unmavreth_part part)
{
    if (part.octets == 0)
        return;
    out("    %s, %zu octets: ", what, (size_t)part.octets);
    print_some_octets(part.start, part.octets);
    out("\n");
}

// A fault of the chain, which is told with its payload.
static bool is_fault(uint8_t number)
{
    return (number >= UNMAVRETH_BAD_CHAIN_LENGTH && number <= UNMAVRETH_OCTETS_AFTER_END) ||
           number == UNMAVRETH_UNKNOWN_CRITICAL;
}

static void print_reply(const unmavreth_reply *r, const message *request)
{
    style s = r->number == UNMAVRETH_DONE ? GOOD : CHANGED;
    out("  Gateway answers ");
    out_wrapped(s, 18, 4, "%u: %s", r->number, unmavreth_number_words(r->number));
    if (is_fault(r->number))
        out("    at offset %u, payload %u from 0\n", r->offset, r->ordinal);
    out("    update %u: %s; list %u: %s; addresses left off %u; payloads %u\n", r->update,
        unmavreth_update_words(r->update), r->list, unmavreth_list_words(r->list), r->left_off, r->payloads);
    unmavreth_part cookie = {request->octets, 0};
    unmavreth_cookie(&cookie, request->octets, request->length, r->cookie, r->cookie_len);
    print_part("cookie handed out", cookie);
}

void print_described(const char *what, const message *m)
{
    if (m->length == 0)
        out("  %s: first payload's type %u, empty\n", what, m->first);
    else
        out("  %s: first payload's type %u, %zu octets\n", what, m->first, m->length);
    print_message(m);
}

void print_assessment(const char *whose, const unmavreth_assessment *a)
{
    out("  %s answers %u: %s\n", whose, a->number, unmavreth_number_words(a->number));
    out("    outcome %u: %s; payloads %u, unknown %u\n", a->outcome, unmavreth_outcome_words(a->outcome), a->payloads,
        (unsigned)a->tally);
}

// What the initiator is handed out of the response: the cookie that came back and both NAT detection values, as parts
// of the response's own octets.
static void hand_out(checks *c, const exchange *x, const message *m, const unmavreth_assessment *a)
{
    unmavreth_part cookie = {m->octets, 0}, source = {m->octets, 0}, destination = {m->octets, 0};
    unmavreth_reading r = unmavreth_read(m->first, m->octets, m->length);
    unmavreth_cookie(&cookie, m->octets, m->length, a->cookie, a->cookie_len);
    unmavreth_nat_value(&source, m->octets, m->length, r.seen.nat_source);
    unmavreth_nat_value(&destination, m->octets, m->length, r.seen.nat_destination);
    print_part("cookie that came back", cookie);
    print_part("NAT detection source", source);
    print_part("NAT detection destination", destination);
    check_holds(c, "a part handed out lies elsewhere",
                cookie.start == m->octets + a->cookie && source.start == m->octets + r.seen.nat_source &&
                    destination.start == m->octets + r.seen.nat_destination);
    check_holds(c, "another cookie came back",
                cookie.octets == 0 || (cookie.octets == x->sent.cookie_octets &&
                                       memcmp(cookie.start, x->sent.cookie, cookie.octets) == 0));
}

static void check_answers(checks *c, const exchange *x, const unmavreth_reply *r, const unmavreth_assessment *a)
{
    check_number(c, "the answer", r->number, x->number);
    check_number(c, "the update", r->update, x->update);
    check_number(c, "the list", r->list, x->list);
    check_number(c, "the offset", r->offset, x->offset);
    check_number(c, "the ordinal", r->ordinal, x->ordinal);
    check_number(c, "the count of payloads", r->payloads, x->payloads);
    check_number(c, "the initiator's number", a->number, UNMAVRETH_DONE);
    check_number(c, "the initiator's outcome", a->outcome, x->outcome);
    check_number(c, "the initiator's tally", a->tally, 0);
}

// What the exchange came to at both ends, in few words.
static void tell_outcome(day *d, const unmavreth_reply *r, const unmavreth_assessment *a)
{
    add_outcome(d, "%u: %s", r->number, unmavreth_number_words(r->number));
    if (r->update != UNMAVRETH_UPDATE_NONE)
        add_outcome(d, "update %s", unmavreth_update_words(r->update));
    if (r->list != UNMAVRETH_LIST_NONE)
        add_outcome(d, "list %s", unmavreth_list_words(r->list));
    add_outcome(d, "initiator: %s", unmavreth_outcome_words(a->outcome));
}

void play(day *d, const exchange *x)
{
    message response;
    bool kept;
    print_request(x);
    print_read(&x->sent.request);
    unmavreth_reply reply = gateway_answer(&d->gateway, x->spi, x->id, x->packet, &x->sent.request, &x->check,
                                           &response, &kept);
    unmavreth_assessment assessment = initiator_assess(&x->sent, &response);
    print_reply(&reply, &x->sent.request);
    print_described("Response", &response);
    print_assessment("Initiator's end", &assessment);
    hand_out(&d->checks, x, &response, &assessment);
    check_answers(&d->checks, x, &reply, &assessment);
    check_holds(&d->checks, "the octets past the response changed", kept);
    check_holds(&d->checks, "a field of the tables differs", same_tables(&x->after, &d->gateway.tables));
    tell_outcome(d, &reply, &assessment);
}
