// Runs the snippets, in the place of the host that is around them.
#include "auth_list.c"
#include "clone.c"
#include "moved.c"
#include "rekey.c"
#include "update.c"

#include <arpa/inet.h>

#include "holds.h"

#define SPI UINT64_C(0x0a11ce0000000001)
#define NEW_SPI UINT64_C(0x0a11ce0000000002)
#define CLONE_SPI UINT64_C(0x0a11ce0000000009)
enum { CHILD = 70, CHILD_2 = 71, CHILD_3 = 72, PORT = 4500, COOKIE_AT = 16, COOKIE_OCTETS = 8 };
enum { OURS = UNMAVRETH_OPERATOR_B }; // whose SAs these are

// An update with a cookie.
static const uint8_t update[] = {41, 0, 0, 8,  0, 0, 0x40, 0x10, 0, 0, 0, 16,
                                 0,  0, 0x40, 0x11, 1, 2, 3,    4,    5, 6, 7, 8};

static const uint8_t cookie[UNMAVRETH_COOKIE_LEAST] = {9, 9, 9, 9, 9, 9, 9, 9};

// The last response, the last request of ours, how often an SA was closed, and how many child SAs were moved.
static struct {
    uint32_t id;
    uint8_t first;
    uint8_t payloads[UNMAVRETH_RESPONSE_ROOM];
    size_t octets;
    struct ike_response asked;
    uint8_t asked_payloads[UNMAVRETH_REQUEST_ROOM];
    unsigned asks, closes, moves;
    unmavreth_pair was, is;
} seen;

void ike_respond(const struct ike_sa *sa, uint32_t id, uint8_t first, const uint8_t *payloads, size_t octets)
{
    HOLDS(sa->own_spi == SPI && octets <= sizeof seen.payloads);
    seen.id = id;
    seen.first = first;
    memcpy(seen.payloads, payloads, octets);
    seen.octets = octets;
}

void ike_ask(const struct ike_sa *sa, uint32_t id, uint8_t first, const uint8_t *payloads, size_t octets)
{
    HOLDS(sa->own_spi == SPI && id == sa->next_id && octets <= sizeof seen.asked_payloads);
    memcpy(seen.asked_payloads, payloads, octets);
    seen.asked.id = id;
    seen.asked.first = first;
    seen.asked.payloads = seen.asked_payloads;
    seen.asked.octets = octets;
    seen.asks++;
}

void ike_close(const struct ike_sa *sa)
{
    HOLDS(sa->own_spi == SPI);
    seen.closes++;
}

void ike_move_child(uint32_t child_spi, const unmavreth_pair *was, const unmavreth_pair *is)
{
    HOLDS(child_spi == CHILD || child_spi == CHILD_2);
    seen.moves++;
    seen.was = *was;
    seen.is = *is;
}

static struct sockaddr_storage socket_address(int family, const char *text, uint16_t port)
{
    struct sockaddr_storage address;
    memset(&address, 0, sizeof address);
    address.ss_family = (sa_family_t)family;
    struct sockaddr_in *ip4 = (struct sockaddr_in *)&address;
    struct sockaddr_in6 *ip6 = (struct sockaddr_in6 *)&address;
    HOLDS(inet_pton(family, text, family == AF_INET ? (void *)&ip4->sin_addr : (void *)&ip6->sin6_addr) == 1);
    *(family == AF_INET ? &ip4->sin_port : &ip6->sin6_port) = htons(port);
    return address;
}

// The check that was asked for is COOKIE2 with the octets that were drawn; its response is these payloads again.
static void try_checked(const struct ike_sa *sa, const struct ike_request *came)
{
    HOLDS(seen.asks == 1 && seen.asked.id == 30 && seen.asked.octets == 8 + sizeof came->fresh);
    HOLDS(memcmp(seen.asked_payloads + 8, came->fresh, sizeof came->fresh) == 0);
    struct ike_response late = seen.asked;
    late.id = 29;
    HOLDS(mobike_checked(sa, &late) == UNMAVRETH_CHECK_NOT_PENDING);
    HOLDS(mobike_checked(sa, &seen.asked) == UNMAVRETH_DONE && seen.closes == 0);
    HOLDS(mobike_checked(sa, &seen.asked) == UNMAVRETH_CHECK_NOT_PENDING);
}

// Another cookie comes back from where the peer says that it is.
static void try_closed(const struct ike_sa *sa, const struct ike_request *came)
{
    HOLDS(mobike_request(sa, came) == UNMAVRETH_DONE && seen.asks == 2);
    seen.asked_payloads[8]++;
    HOLDS(mobike_checked(sa, &seen.asked) == UNMAVRETH_DONE && seen.closes == 1);
    HOLDS(unmavreth_find_ike(&gateway, SPI) == NULL && unmavreth_find_ipsec(&gateway, CHILD) == NULL);
}

// README's snippet: a record is opened, and an update from an IPv4-mapped address is refused without a rule and with
// the other operator's, applied with one, answered and checked; last, another cookie comes back, and the SA is closed.
static void try_update(void)
{
    const struct sockaddr_storage old = socket_address(AF_INET, "203.0.113.5", PORT);
    const struct sockaddr_storage own = socket_address(AF_INET, "192.0.2.1", PORT);
    const struct sockaddr_storage from = socket_address(AF_INET6, "::ffff:198.51.100.7", PORT);
    const struct sockaddr_storage to = socket_address(AF_INET6, "::ffff:192.0.2.1", PORT);
    const struct ike_sa sa = {.own_spi = SPI, .child_spi = CHILD, .mobike = 1, .cloning = 1, .operator_id = OURS,
                              .client = 5, .next_id = 30, .peer = (const struct sockaddr *)&old,
                              .own = (const struct sockaddr *)&own};
    struct ike_request came = {.id = 4, .from = (const struct sockaddr *)&from, .to = (const struct sockaddr *)&to,
                               .nat_source = {{0}}, .nat_destination = {{0}}, .first = 41, .payloads = update,
                               .octets = sizeof update, .fresh = {7, 7, 7}};
    HOLDS(mobike_open(&sa) == UNMAVRETH_DONE);
    HOLDS(mobike_open(&sa) == UNMAVRETH_SPI_IN_USE);
    HOLDS(mobike_request(&sa, &came) == UNMAVRETH_NOT_ACCEPTABLE && seen.asks == 0);
    HOLDS(seen.first == 41 && seen.octets == 8 + COOKIE_AT && seen.payloads[7] == UNMAVRETH_UNACCEPTABLE_ADDRESSES);
    const unmavreth_rule rule = {.family = 4, .source = {198, 51, 100}, .destination = {192, 0, 2, 1},
                                 .source_len = 24, .destination_len = 32};
    HOLDS(unmavreth_gateway_set_policy(&gateway, &rule, 1, UNMAVRETH_OPERATOR_A) == UNMAVRETH_DONE);
    came.id = 5;
    HOLDS(mobike_request(&sa, &came) == UNMAVRETH_NOT_ACCEPTABLE && seen.asks == 0); // that rule is the other's
    HOLDS(unmavreth_gateway_set_policy(&gateway, &rule, 1, OURS) == UNMAVRETH_DONE);
    came.id = 6;
    HOLDS(mobike_request(&sa, &came) == UNMAVRETH_DONE);
    HOLDS(seen.id == 6 && seen.first == 41 && seen.octets == COOKIE_AT);
    HOLDS(memcmp(seen.payloads + 8, update + COOKIE_AT, COOKIE_OCTETS) == 0);
    const unmavreth_pair now = unmavreth_pair_of(came.from, came.to);
    const unmavreth_pair before = unmavreth_pair_of(sa.peer, sa.own);
    HOLDS(unmavreth_same_pair(&unmavreth_find_ike(&gateway, SPI)->pair, &now));
    HOLDS(unmavreth_same_pair(&unmavreth_find_ipsec(&gateway, CHILD)->pair, &before));
    try_checked(&sa, &came);
    HOLDS(unmavreth_same_pair(&unmavreth_find_ipsec(&gateway, CHILD)->pair, &now));
    came.octets = UNMAVRETH_BODY_MOST + 1; // answered 3, before anything of the body is looked at
    HOLDS(mobike_request(&sa, &came) == UNMAVRETH_BODY_TOO_LONG && seen.first == 0 && seen.octets == 0);
    came.octets = sizeof update;
    came.id = 7;
    try_closed(&sa, &came);
    HOLDS(mobike_open(&sa) == UNMAVRETH_DONE);
}

// Each child SA is moved, from where it was to where it is, once the check has come back; before that none.
static void try_moved(void)
{
    const unmavreth_pair was = unmavreth_find_ike(&gateway, SPI)->pair;
    unmavreth_request request = {.spi = SPI, .id = 6, .pair = was, .nat_source = {{0}}, .nat_destination = {{0}},
                                 .first = 41, .body = {update, sizeof update}, .cookie = {cookie, sizeof cookie},
                                 .check_id = 31, .operator_id = OURS};
    unmavreth_response response;
    unmavreth_message check;
    static const uint8_t there[UNMAVRETH_IP4_OCTETS] = {198, 51, 100, 9};
    memcpy(request.pair.source, there, sizeof there);
    HOLDS(unmavreth_gateway_open_ipsec(&gateway, CHILD_2, SPI, OURS) == UNMAVRETH_DONE);
    const unmavreth_opening other = {.spi = NEW_SPI + 1, .agreed = {.mobike = 1}, .pair = was, .child = CHILD_3}; // A's
    HOLDS(unmavreth_gateway_open(&gateway, &other) == UNMAVRETH_DONE);
    const unmavreth_reply reply = unmavreth_gateway_handle(&gateway, &request, &response);
    HOLDS(reply.update == UNMAVRETH_UPDATE_APPLIED);
    const unmavreth_written written = unmavreth_write_check(&reply, &request, &check);
    const unmavreth_check_response copied = {.spi = SPI, .id = 31, .first = written.first,
                                             .body = {check.octets, written.length}, .operator_id = OURS};
    HOLDS(mobike_move(&gateway, &copied).outcome == UNMAVRETH_OUTCOME_ACCEPTED);
    HOLDS(seen.moves == 2 && unmavreth_same_pair(&seen.was, &was) && unmavreth_same_pair(&seen.is, &request.pair));
    HOLDS(mobike_move(&gateway, &copied).number == UNMAVRETH_CHECK_NOT_PENDING && seen.moves == 2);
}

// The additional addresses of an IKE_AUTH request are kept, and a list of a later request is newer; a chain without any
// changes nothing.
static void try_auth_list(void)
{
    static const uint8_t auth[] = {41, 0, 0, 4, 41, 0, 0, 8,  0,  0, 0x40, 0x0c, 41, 0, 0, 12, 0,   0,  0x40, 0x0d,
                                   10, 0, 0, 1, 0,  0, 0, 12, 0,  0, 0x40, 0x0d, 10, 0, 0, 2};
    const unmavreth_part body = {auth, sizeof auth};
    const unmavreth_part without = {NULL, 0};
    HOLDS(mobike_auth_list(&gateway, SPI, 1, 0, without) == UNMAVRETH_DONE);
    HOLDS(unmavreth_find_ike(&gateway, SPI)->list_mark == 0);
    HOLDS(mobike_auth_list(&gateway, SPI, 1, UNMAVRETH_FIRST_KNOWN_PAYLOAD, body) == UNMAVRETH_DONE);
    const unmavreth_ike *record = unmavreth_find_ike(&gateway, SPI);
    HOLDS(record->count == 2 && record->addresses[1].octets[3] == 2 && record->list_mark == 1 + 1);
    HOLDS(record->unknown == 0);
    HOLDS(mobike_auth_list(&gateway, NEW_SPI, 1, UNMAVRETH_FIRST_KNOWN_PAYLOAD, body) == UNMAVRETH_NO_SUCH_RECORD);
}

// A rekey with CLONE_IKE_SA makes a record beside the old one; one that is refused is answered, and one without the
// notification is left to the host.
static void try_clone(void)
{
    static const uint8_t rekey[] = {33, 0, 0, 8, 0, 0, 0x40, 0x31, 0, 0, 0, 4};
    const struct ike_sa sa = {.own_spi = SPI, .child_spi = CHILD, .mobike = 1, .cloning = 1, .operator_id = OURS,
                              .client = 5, .next_id = 32, .peer = NULL, .own = NULL};
    struct ike_request came = {.id = 70, .from = NULL, .to = NULL, .nat_source = {{0}}, .nat_destination = {{0}},
                               .first = 41, .payloads = rekey, .octets = sizeof rekey, .fresh = {0}};
    const unmavreth_ike was = *unmavreth_find_ike(&gateway, SPI);
    HOLDS(mobike_clone(&gateway, &sa, &came, SPI) == UNMAVRETH_SPI_IN_USE);
    HOLDS(mobike_clone(&gateway, &sa, &came, CLONE_SPI) == UNMAVRETH_DONE && seen.id != 70);
    const unmavreth_ike *is = unmavreth_find_ike(&gateway, CLONE_SPI);
    HOLDS(is != NULL && is->agreed.cloning == 1 && is->agreed.peer == 5 && unmavreth_same_pair(&is->pair, &was.pair));
    HOLDS(is->agreed.operator_id == OURS && unmavreth_operator_ike_records(&gateway, OURS) == 2);
    HOLDS(is->list_mark == 0 && unmavreth_peer_records(&gateway, 5, OURS) == 2);
    came.first = 33;
    came.payloads = rekey + UNMAVRETH_NOTIFY_HEADER;
    came.octets = sizeof rekey - UNMAVRETH_NOTIFY_HEADER;
    HOLDS(mobike_clone(&gateway, &sa, &came, CLONE_SPI + 1) == UNMAVRETH_NO_CLONE_REQUEST && seen.id != 70);
    came.first = 41;
    came.payloads = rekey;
    came.octets = sizeof rekey;
    HOLDS(unmavreth_gateway_mark_deletion(&gateway, SPI, OURS) == UNMAVRETH_DONE);
    HOLDS(mobike_clone(&gateway, &sa, &came, CLONE_SPI + 1) == UNMAVRETH_CANNOT_CLONE_NOW && seen.id == 70);
    HOLDS(seen.first == 41 && seen.octets == 8 && seen.payloads[7] == UNMAVRETH_TEMPORARY_FAILURE);
}

// The new record has the pair and the IPsec records of the old one, no marks and an empty list.
static void try_rekey(void)
{
    const unmavreth_ike was = *unmavreth_find_ike(&gateway, SPI);
    HOLDS(mobike_rekey(&gateway, SPI, NEW_SPI + 1) == UNMAVRETH_SPI_IN_USE);
    HOLDS(mobike_rekey(&gateway, SPI, 0) == UNMAVRETH_BAD_ARGUMENT);
    HOLDS(mobike_rekey(&gateway, SPI, NEW_SPI) == UNMAVRETH_DONE);
    HOLDS(mobike_rekey(&gateway, SPI, NEW_SPI) == UNMAVRETH_NO_SUCH_RECORD);
    const unmavreth_ike *is = unmavreth_find_ike(&gateway, NEW_SPI);
    HOLDS(is != NULL && is->agreed.mobike == was.agreed.mobike && unmavreth_same_pair(&is->pair, &was.pair));
    HOLDS(is->agreed.cloning == was.agreed.cloning && is->agreed.peer == was.agreed.peer && is->deleting == 0);
    HOLDS(is->agreed.operator_id == OURS);
    HOLDS(is->update_mark == 0 && is->list_mark == 0 && is->count == 0);
    for (uint32_t child = CHILD; child <= CHILD_2; child++) {
        const unmavreth_ipsec *of = unmavreth_find_ipsec(&gateway, child);
        HOLDS(of != NULL && of->owner == NEW_SPI && unmavreth_same_pair(&of->pair, &was.pair));
    }
    HOLDS(unmavreth_find_ipsec(&gateway, CHILD_3)->owner == NEW_SPI + 1);
}

int main(void)
{
    try_update();
    try_moved();
    try_auth_list();
    try_clone();
    try_rekey();
    return 0;
}
