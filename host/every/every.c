// Each call of the library, with what it is lent.
#include "every.h"

#include <stdlib.h>
#include <unmavreth_host.h>

enum { SHORT_PAYLOAD = 4, NOTIFY = 8, SKIPPED_TYPE = 33, UNKNOWN_TYPE = 200 };
enum { OURS = UNMAVRETH_OPERATOR_B, OTHER = UNMAVRETH_OPERATOR_A }; // the operator that the calls name, and the other

// What is lent.
static unmavreth_gateway gateway;
static unmavreth_draft draft;
static unmavreth_message message;
static unmavreth_request request;
static unmavreth_response response;
static unmavreth_part body, out;
static uint8_t first, octets[UNMAVRETH_BODY_MOST], cookie[UNMAVRETH_COOKIE_MOST];
static unmavreth_rule rules[UNMAVRETH_RULES_MOST];
static unmavreth_rules lent_rules;
static unmavreth_opening opening;
static unmavreth_seen seen;
static unmavreth_redirects record;
static unmavreth_redirect_data data;
static size_t data_octets;
static uint8_t name[UNMAVRETH_FQDN_MOST], nonce[UNMAVRETH_NONCE_MOST];
static uint64_t slots[UNMAVRETH_ENTRY_SLOTS];
static uint8_t entry[UNMAVRETH_ENTRY_MOST], kind;
static size_t entry_octets;

unsigned number;

static void interface(void)
{
    number = unmavreth_interface() != UNMAVRETH_INTERFACE;
}

static void read_chain(void)
{
    number = unmavreth_read(first, body.start, body.octets).number;
}

static void hand_out_cookie(void)
{
    unmavreth_cookie(&out, body.start, body.octets, UNMAVRETH_NOTIFY_HEADER, UNMAVRETH_COOKIE_MOST);
    number = 0;
}

static void hand_out_nat_value(void)
{
    unmavreth_nat_value(&out, body.start, body.octets, UNMAVRETH_NOTIFY_HEADER);
    number = 0;
}

static void hand_out_no_nats(void)
{
    number = unmavreth_no_nats(body.start, body.octets, seen.no_nats, seen.no_nats_len).family != 6;
}

static void hand_out_addresses(void)
{
    number = unmavreth_addresses(body.start, body.octets, seen.list).list[15].family != 6;
}

static void handle(void)
{
    number = unmavreth_handle(&gateway.ike, gateway.ipsec, UNMAVRETH_IPSEC_PLACES, &gateway.policies, request.spi,
                              request.id, request.pair, request.nat_source.octets, UNMAVRETH_NAT_OCTETS,
                              request.nat_destination.octets, UNMAVRETH_NAT_OCTETS, cookie, sizeof cookie, 0, first,
                              body.start, body.octets, response.octets, UNMAVRETH_RESPONSE_ROOM, OURS)
                 .number;
}

static void end_check(void)
{
    number = unmavreth_check(&gateway.ike, gateway.ipsec, UNMAVRETH_IPSEC_PLACES, request.spi, 0, first, body.start,
                             body.octets, OURS)
                 .number;
}

static void clone_original(void)
{
    number = unmavreth_clone(&gateway.ike, request.spi, 9, first, body.start, body.octets, response.octets,
                             UNMAVRETH_RESPONSE_ROOM, OURS)
                 .number;
}

static void write_request(void)
{
    number = unmavreth_write(draft.ask, draft.pair, draft.addresses, draft.nat_source.octets, UNMAVRETH_NAT_OCTETS,
                             draft.nat_destination.octets, UNMAVRETH_NAT_OCTETS, cookie, sizeof cookie, message.octets,
                             UNMAVRETH_REQUEST_ROOM)
                 .number;
}

static void assess(void)
{
    number = unmavreth_assess(cookie, sizeof cookie, first, body.start, body.octets).number;
}

static void open_both(void)
{
    number = unmavreth_open(&gateway.ike, gateway.ipsec, UNMAVRETH_IPSEC_PLACES, opening);
}

static void open_ipsec(void)
{
    number = unmavreth_open_ipsec(&gateway.ike, gateway.ipsec, UNMAVRETH_IPSEC_PLACES, 1, opening.spi, OURS);
}

static void close_ike(void)
{
    number = unmavreth_close_ike(&gateway.ike, gateway.ipsec, UNMAVRETH_IPSEC_PLACES, opening.spi, OURS);
}

static void close_ipsec(void)
{
    number = unmavreth_close_ipsec(&gateway.ike, gateway.ipsec, UNMAVRETH_IPSEC_PLACES, opening.child, OURS);
}

static void mark_deletion(void)
{
    number = unmavreth_mark_deletion(&gateway.ike, opening.spi, OURS);
}

static void set_policy(void)
{
    number = unmavreth_set_policy(&gateway.policies, UNMAVRETH_RULES_MOST, &lent_rules, OURS);
}

static void acceptable(void)
{
    number = !unmavreth_acceptable(&gateway.policies, request.pair, OURS);
}

static void write_redirect(void)
{
    const unmavreth_data_written written = unmavreth_write_redirect(UNMAVRETH_FQDN_IDENTITY, name, sizeof name, nonce,
                                                                    sizeof nonce, data.octets, sizeof data.octets);
    number = written.number;
    data_octets = written.length;
}

static void write_redirected_from(void)
{
    const unmavreth_data_written written = unmavreth_write_redirected_from(
        UNMAVRETH_IP6_IDENTITY, name, UNMAVRETH_IP6_OCTETS, data.octets, sizeof data.octets);
    number = written.number;
    data_octets = written.length;
}

static void write_redirect_supported(void)
{
    number = unmavreth_write_redirect_supported(data.octets, sizeof data.octets).number;
}

static void read_redirect(void)
{
    number = unmavreth_read_redirect(&out, &body, data.octets, data_octets).number;
}

static void read_redirected_from(void)
{
    number = unmavreth_read_redirected_from(&out, data.octets, data_octets).number;
}

static void read_redirect_supported(void)
{
    number = unmavreth_read_redirect_supported(data.octets, 0);
}

static void decide_redirect(void)
{
    number = unmavreth_decide_redirect(&record.count, record.times, &out, UNMAVRETH_SA_INIT, nonce, sizeof nonce, 400,
                                       data.octets, data_octets)
                 .number;
}

static void write_entry(void)
{
    const unmavreth_entry_written written =
        unmavreth_write_entry(kind, slots, octets, sizeof octets, entry, sizeof entry);
    number = written.number;
    entry_octets = written.length;
}

static void read_entry(void)
{
    number = unmavreth_read_entry(entry, entry_octets, 0).number;
}

// One record with as many IPsec records as its operator may have and a check by our request 0, its cookie zeros, and a
// policy whose last rule is the one that matches. The other operator has one record, with the other IPsec records.
static void begin(void)
{
    memset(&gateway, 0, sizeof gateway);
    memset(&request, 0, sizeof request);
    const unmavreth_opening others = {.spi = 6, .agreed = {.operator_id = OTHER}, .pair = {.family = 6}, .child = 200};
    opening = (unmavreth_opening){
        .spi = 7, .agreed = {.mobike = 1, .operator_id = OURS}, .pair = {.family = 6}, .child = 70};
    request = (unmavreth_request){.spi = 7, .pair = {.family = 6, .source = {[15] = 16}}};
    for (size_t i = 0; i < UNMAVRETH_RULES_MOST; i++)
        lent_rules.rules[i] = rules[i] =
            (unmavreth_rule){.family = 6, .source = {[15] = (uint8_t)(i + 1)}, .source_len = 128};
    if (unmavreth_gateway_open(&gateway, &opening) || unmavreth_gateway_open(&gateway, &others) ||
        unmavreth_gateway_set_policy(&gateway, rules, UNMAVRETH_RULES_MOST, OURS))
        exit(2);
    for (uint32_t spi = 71; spi < 70 + UNMAVRETH_IPSEC_SHARE; spi++)
        if (unmavreth_gateway_open_ipsec(&gateway, spi, 7, OURS))
            exit(2);
    for (uint32_t spi = 201; spi < 200 + UNMAVRETH_IPSEC_PLACES - UNMAVRETH_IPSEC_SHARE; spi++)
        if (unmavreth_gateway_open_ipsec(&gateway, spi, 6, OTHER))
            exit(2);
    gateway.ike.records[0].check.length = sizeof cookie;
}

// A chain that fills the body, of payloads of this type and size; a Notify of an unknown type if it has room for that.
static void fill_body(uint8_t type, size_t size)
{
    memset(octets, 0, sizeof octets);
    for (size_t at = 0; at < sizeof octets; at += size) {
        octets[at] = at + size < sizeof octets ? type : 0;
        octets[at + 3] = (uint8_t)size;
        if (size == NOTIFY)
            octets[at + 6] = 0x60;
    }
    first = type;
    body = (unmavreth_part){octets, sizeof octets};
}

// The longest request that the writer writes.
static void request_in_full(void)
{
    draft = (unmavreth_draft){.ask = {.update = 1, .no_nats = 1, .nat_source = 1, .nat_destination = 1,
                                      .count = UNMAVRETH_ADDRESSES_MOST},
                              .pair = request.pair, .cookie = {cookie, sizeof cookie}};
    for (size_t i = 0; i < UNMAVRETH_ADDRESSES_MOST; i++)
        draft.addresses.list[i].family = 6;
    const unmavreth_written written = unmavreth_write_draft(&draft, &message);
    if (written.number || written.length != UNMAVRETH_REQUEST_ROOM)
        exit(2);
    first = written.first;
    body = (unmavreth_part){message.octets, written.length};
    seen = unmavreth_read_part(first, body).seen;
}

// The chains that a reader is given: of payloads that are skipped, that are unknown, of unknown notifications, and one
// whose last payload ends behind the body.
static void of_skipped(void)
{
    begin();
    fill_body(SKIPPED_TYPE, SHORT_PAYLOAD);
}

static void of_unknown(void)
{
    begin();
    fill_body(UNKNOWN_TYPE, SHORT_PAYLOAD);
}

static void of_notifies(void)
{
    begin();
    fill_body(UNMAVRETH_NOTIFY_PAYLOAD, NOTIFY);
}

static void cut(void)
{
    of_notifies();
    octets[sizeof octets - NOTIFY + 3] = NOTIFY + 1;
}

static void asked_in_full(void)
{
    begin();
    request_in_full();
}

// The last of the records is the original, and one place is free for its clone; what is asked of the peer's and the
// operator's records and of the SPIs is asked of all 32, which both operators have in turn.
static void with_an_original(void)
{
    for (size_t i = 0; i < UNMAVRETH_IKE_PLACES - 1; i++)
        gateway.ike.records[i] =
            (unmavreth_ike){.spi = 100 + i, .agreed = {.operator_id = i % UNMAVRETH_OPERATORS, .peer = 1}};
    memset(&gateway.ike.records[UNMAVRETH_IKE_PLACES - 2], 0, sizeof gateway.ike.records[0]);
    gateway.ike.records[UNMAVRETH_IKE_PLACES - 1] =
        (unmavreth_ike){.spi = 7, .agreed = {.cloning = 1, .operator_id = OURS}, .pair = {.family = 6}};
}

// The chain is told to be no request to clone, and one with CLONE_IKE_SA as its last payload is.
static void rekey_of_skipped(void)
{
    of_skipped();
    with_an_original();
}

static void rekey_of_unknown(void)
{
    of_unknown();
    with_an_original();
}

static void rekey_of_notifies(void)
{
    of_notifies();
    with_an_original();
}

static void rekey_cut(void)
{
    cut();
    with_an_original();
}

static void rekey_in_full(void)
{
    asked_in_full();
    with_an_original();
}

static void rekey_to_clone(void)
{
    rekey_of_notifies();
    octets[sizeof octets - NOTIFY + 6] = UNMAVRETH_CLONE_IKE_SA >> 8;
    octets[sizeof octets - NOTIFY + 7] = UNMAVRETH_CLONE_IKE_SA & UINT8_MAX;
}

static void to_mark(void)
{
    begin();
    with_an_original();
}

static void with_a_free_place(void)
{
    begin();
    memset(&gateway.ipsec[2], 0, sizeof gateway.ipsec[2]);
}

static void with_free_places(void)
{
    with_a_free_place();
    opening.spi = 8;
    opening.child = 1;
}

// The longest data of a redirect, and a record of five times, the last four of them recent at 400 seconds.
static void redirected(void)
{
    body = out = (unmavreth_part){name, 0};
    record = (unmavreth_redirects){UNMAVRETH_REDIRECTS_MOST, {100, 200, 250, 300, 400}};
    write_redirect();
}

static void came_from(void)
{
    redirected();
    write_redirected_from();
}

// An entry, for writing and, once it is written, for reading.
static void entry_of(uint8_t its_kind)
{
    begin();
    kind = its_kind;
    memset(slots, 0, sizeof slots);
    if (kind == UNMAVRETH_KIND_REQUEST)
        slots[UNMAVRETH_REQUEST_BODY_SIZE] = slots[UNMAVRETH_REQUEST_COOKIE_SIZE] = UNMAVRETH_STRING_MOST;
    if (kind == UNMAVRETH_KIND_CHECK_RESPONSE)
        slots[UNMAVRETH_CHECK_RESPONSE_BODY_SIZE] = UNMAVRETH_STRING_MOST;
    if (kind == UNMAVRETH_KIND_CLONE)
        slots[UNMAVRETH_CLONE_BODY_SIZE] = UNMAVRETH_STRING_MOST;
    if (kind == UNMAVRETH_KIND_POLICY)
        slots[UNMAVRETH_POLICY_COUNT] = UNMAVRETH_RULES_MOST;
    write_entry();
}

static void entry_of_opening(void) { entry_of(UNMAVRETH_KIND_OPEN_BOTH); }
static void entry_of_request(void) { entry_of(UNMAVRETH_KIND_REQUEST); }
static void entry_of_policy(void) { entry_of(UNMAVRETH_KIND_POLICY); }
static void entry_of_response(void) { entry_of(UNMAVRETH_KIND_CHECK_RESPONSE); }
static void entry_of_clone(void) { entry_of(UNMAVRETH_KIND_CLONE); }
static void entry_of_mark(void) { entry_of(UNMAVRETH_KIND_MARK_DELETION); }

const every_call every[] = {
    {"unmavreth_interface", begin, interface, 0},
    {"unmavreth_read", of_skipped, read_chain, 0},
    {"unmavreth_read", of_unknown, read_chain, 0},
    {"unmavreth_read", of_notifies, read_chain, 0},
    {"unmavreth_read", cut, read_chain, UNMAVRETH_BAD_CHAIN_LENGTH},
    {"unmavreth_read", asked_in_full, read_chain, 0},
    {"unmavreth_cookie", asked_in_full, hand_out_cookie, 0},
    {"unmavreth_nat_value", asked_in_full, hand_out_nat_value, 0},
    {"unmavreth_no_nats", asked_in_full, hand_out_no_nats, 0},
    {"unmavreth_addresses", asked_in_full, hand_out_addresses, 0},
    {"unmavreth_handle", of_skipped, handle, 0},
    {"unmavreth_handle", of_unknown, handle, 0},
    {"unmavreth_handle", of_notifies, handle, 0},
    {"unmavreth_handle", cut, handle, UNMAVRETH_BAD_CHAIN_LENGTH},
    {"unmavreth_handle", asked_in_full, handle, 0},
    {"unmavreth_check", of_skipped, end_check, 0},
    {"unmavreth_check", of_unknown, end_check, 0},
    {"unmavreth_check", of_notifies, end_check, 0},
    {"unmavreth_check", cut, end_check, UNMAVRETH_BAD_CHAIN_LENGTH},
    {"unmavreth_check", asked_in_full, end_check, 0},
    {"unmavreth_clone", rekey_of_skipped, clone_original, UNMAVRETH_NO_CLONE_REQUEST},
    {"unmavreth_clone", rekey_of_unknown, clone_original, UNMAVRETH_NO_CLONE_REQUEST},
    {"unmavreth_clone", rekey_of_notifies, clone_original, UNMAVRETH_NO_CLONE_REQUEST},
    {"unmavreth_clone", rekey_cut, clone_original, UNMAVRETH_BAD_CHAIN_LENGTH},
    {"unmavreth_clone", rekey_in_full, clone_original, UNMAVRETH_NO_CLONE_REQUEST},
    {"unmavreth_clone", rekey_to_clone, clone_original, 0},
    {"unmavreth_write", asked_in_full, write_request, 0},
    {"unmavreth_assess", of_skipped, assess, 0},
    {"unmavreth_assess", of_unknown, assess, 0},
    {"unmavreth_assess", of_notifies, assess, 0},
    {"unmavreth_assess", cut, assess, UNMAVRETH_BAD_CHAIN_LENGTH},
    {"unmavreth_assess", asked_in_full, assess, 0},
    {"unmavreth_close_ipsec", begin, close_ipsec, 0},
    {"unmavreth_close_ike", begin, close_ike, 0},
    {"unmavreth_mark_deletion", to_mark, mark_deletion, 0},
    {"unmavreth_open_ipsec", with_a_free_place, open_ipsec, 0},
    {"unmavreth_open", with_free_places, open_both, 0},
    {"unmavreth_set_policy", begin, set_policy, 0},
    {"unmavreth_acceptable", begin, acceptable, 0},
    {"unmavreth_read_redirect", redirected, read_redirect, 0},
    {"unmavreth_read_redirected_from", came_from, read_redirected_from, 0},
    {"unmavreth_read_redirected_from", redirected, read_redirected_from, UNMAVRETH_BAD_REDIRECT},
    {"unmavreth_read_redirect_supported", redirected, read_redirect_supported, 0},
    {"unmavreth_write_redirect", redirected, write_redirect, 0},
    {"unmavreth_write_redirected_from", redirected, write_redirected_from, 0},
    {"unmavreth_write_redirect_supported", redirected, write_redirect_supported, 0},
    {"unmavreth_decide_redirect", redirected, decide_redirect, 0},
    {"unmavreth_decide_redirect", came_from, decide_redirect, UNMAVRETH_WRONG_NONCE},
    {"unmavreth_read_entry", entry_of_opening, read_entry, 0},
    {"unmavreth_read_entry", entry_of_request, read_entry, 0},
    {"unmavreth_read_entry", entry_of_policy, read_entry, 0},
    {"unmavreth_read_entry", entry_of_response, read_entry, 0},
    {"unmavreth_read_entry", entry_of_clone, read_entry, 0},
    {"unmavreth_read_entry", entry_of_mark, read_entry, 0},
    {"unmavreth_write_entry", entry_of_opening, write_entry, 0},
    {"unmavreth_write_entry", entry_of_request, write_entry, 0},
    {"unmavreth_write_entry", entry_of_policy, write_entry, 0},
    {"unmavreth_write_entry", entry_of_response, write_entry, 0},
    {"unmavreth_write_entry", entry_of_clone, write_entry, 0},
    {"unmavreth_write_entry", entry_of_mark, write_entry, 0},
};
const size_t every_count = sizeof every / sizeof every[0];
