// One initiator on two networks: its IKE SA is cloned, so that each network has one, and each moves by itself.
#include <inttypes.h>
#include <string.h>

#include "address.h"
#include "cloning.h"
#include "out.h"
#include "records.h"
#include "routability.h"
#include "scenes.h"

#define WIFI_SPI UINT64_C(0x0e1f000000000005)
#define WIFI_IPSEC UINT32_C(0xc1a50006)
#define CELLULAR_IPSEC UINT32_C(0xc1a50007)
#define FURTHER_SPI UINT64_C(0x0e1f000000000007) // of a third and a fourth record, and one that is refused
enum { WIFI_PLACE = 1, CELLULAR_PLACE = 2, FURTHER_PLACE = 3 };

static const unmavreth_pair NO_PAIR;
static const unmavreth_addresses_list NO_ADDRESSES;
static const unmavreth_ask UPDATE = {.update = true};

// What the requests to clone came to.
typedef struct came_to {
    unsigned cloned;
    char refused[OUTCOME];
} came_to;

// Both ends tell in IKE_AUTH that the IKE SA may be cloned, and the gateway opens its record.
static void open_on_wifi(day *d)
{
    unmavreth_opening opening = {
        .spi = WIFI_SPI,
        .agreed = {.mobike = true, .cloning = true, .peer = FIFTH_PEER},
        .pair = pair_of(WIFI, IKE_PORT, GATEWAY, IKE_PORT),
        .child = WIFI_IPSEC,
    };
    message m = initiator_write((unmavreth_ask){.clone_supported = true}, NO_PAIR, &NO_ADDRESSES, false, 0).request;
    tables expected = d->gateway.tables;
    print_described("Of both ends' IKE_AUTH messages", &m);
    check_number(&d->checks, "the octets of CLONE_IKE_SA_SUPPORTED", m.length, UNMAVRETH_NOTIFY_HEADER);
    open_both(d, &opening, UNMAVRETH_DONE);
    open_expected(&expected, WIFI_PLACE, 1, &opening);
    check_holds(&d->checks, "a field of the tables differs", same_tables(&expected, &d->gateway.tables));
}

// An update of the IKE SA at this place is applied, and its check comes back: its own IPsec record moves, no other.
static void move_one(day *d, size_t place, uint32_t id, const char *to)
{
    exchange x = exchange_new(d, id, pair_of(to, IKE_PORT, GATEWAY, IKE_PORT), 1);
    x.spi = d->gateway.tables.ike.records[place].spi;
    x.check.id = 0;
    out("  On IKE SA %016" PRIx64 ":\n", x.spi);
    x.sent = initiator_write(UPDATE, x.packet, &NO_ADDRESSES, false, id);
    expect_applied(&x, place);
    play(d, &x);
    message request = send_check(d, &x.check);
    checking c = checking_new(d, &x.check, initiator_answer(&request));
    c.spi = x.spi;
    accept_expected(&c.after, place);
    play_response(d, &c);
}

// In an INFORMATIONAL request CLONE_IKE_SA is unknown, whatever it has, and tallied.
static void tell_elsewhere(day *d)
{
    static const uint8_t octets[] = {0, 0, 0, 9, 0, 0, 0x40, 0x31, 7};
    exchange x = exchange_new(d, 4, pair_of(CELLULAR, IKE_PORT, GATEWAY, IKE_PORT), 1);
    x.spi = CELLULAR_SPI;
    x.sent.request = message_of(UNMAVRETH_NOTIFY_PAYLOAD, octets, sizeof octets);
    x.after.ike.records[CELLULAR_PLACE].unknown = 1;
    out("  On IKE SA %016" PRIx64 ":\n", x.spi);
    play(d, &x);
}

static void play_one(day *d, came_to *t, const cloning *c)
{
    uint8_t number = play_cloning(d, c);
    if (number == UNMAVRETH_DONE)
        t->cloned++;
    else
        text_add(t->refused, sizeof t->refused, ", ", "%u", number);
}

static void clone_to(day *d, came_to *t, size_t original, size_t place, uint64_t new_spi)
{
    cloning c = cloning_done(d, original, place, new_spi);
    play_one(d, t, &c);
}

// A rekey with CLONE_IKE_SA is refused, once its four payloads are read.
static void refuse(day *d, came_to *t, uint64_t new_spi, uint8_t number, uint16_t notify)
{
    cloning c = cloning_refused(d, WIFI_SPI, new_spi, number, notify);
    c.payloads = 4;
    play_one(d, t, &c);
}

// What is refused while there is room for a clone.
static void refuse_with_room(day *d, came_to *t)
{
    static const uint8_t with_data[] = {0, 0, 0, 9, 0, 0, 0x40, 0x31, 7};
    cloning c = cloning_refused(d, THIRD_SPI, FURTHER_SPI, UNMAVRETH_CLONING_NOT_AGREED, 0);
    play_one(d, t, &c);
    c = cloning_refused(d, WIFI_SPI, FURTHER_SPI, UNMAVRETH_BAD_DATA_SIZE, UNMAVRETH_INVALID_SYNTAX);
    c.request = message_of(UNMAVRETH_NOTIFY_PAYLOAD, with_data, sizeof with_data);
    play_one(d, t, &c);
    c = cloning_refused(d, WIFI_SPI, FURTHER_SPI, UNMAVRETH_NO_CLONE_REQUEST, 0);
    c.request = rekey_message(false);
    c.payloads = 3;
    play_one(d, t, &c);
    refuse(d, t, CELLULAR_SPI, UNMAVRETH_SPI_IN_USE, 0);
}

void play_clone(day *d)
{
    came_to t = {0};
    open_on_wifi(d);
    clone_to(d, &t, WIFI_PLACE, CELLULAR_PLACE, CELLULAR_SPI);
    open_ipsec(d, CELLULAR_IPSEC, CELLULAR_SPI);
    move_one(d, CELLULAR_PLACE, 2, CELLULAR);
    move_one(d, WIFI_PLACE, 3, NEXT_WIFI);
    tell_elsewhere(d);
    refuse_with_room(d, &t);
    clone_to(d, &t, WIFI_PLACE, FURTHER_PLACE, FURTHER_SPI);
    clone_to(d, &t, CELLULAR_PLACE, FURTHER_PLACE + 1, FURTHER_SPI + 1);
    refuse(d, &t, FURTHER_SPI + 2, UNMAVRETH_PEER_AT_LIMIT, UNMAVRETH_NO_ADDITIONAL_SAS);
    mark_deletion(d, WIFI_SPI);
    refuse(d, &t, FURTHER_SPI + 2, UNMAVRETH_CANNOT_CLONE_NOW, UNMAVRETH_TEMPORARY_FAILURE);
    add_outcome(d, "cloned: %u; refused with %s", t.cloned, t.refused);
    tables expected = d->gateway.tables;
    close_ike(d, WIFI_SPI);
    memset(&expected.ike.records[WIFI_PLACE], 0, sizeof expected.ike.records[WIFI_PLACE]);
    memset(&expected.ipsec[1], 0, sizeof expected.ipsec[1]);
    check_holds(&d->checks, "a field of the tables differs", same_tables(&expected, &d->gateway.tables));
    add_in_use(d);
}
