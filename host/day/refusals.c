// What the gateway does not know or accept: nothing unknown passes without a trace, and no refusal moves a record.
#include "address.h"
#include "scenes.h"

static unmavreth_pair on_the_bus(void)
{
    return pair_of(BUS, IKE_PORT, GATEWAY, IKE_PORT);
}

void play_unknown(day *d)
{
    static const uint8_t octets[] = {
        200, 0, 0, 10, 0, 0, 0xc3, 0x50, 0x70, 0x71, // a Notify of type 50000, followed by a payload of type 200
        0,   0, 0, 6,  1, 2,
    };
    exchange x = exchange_new(d, 6, on_the_bus(), 2);
    x.sent.request = message_of(UNMAVRETH_NOTIFY_PAYLOAD, octets, sizeof octets);
    x.after.ike.records[OUR_PLACE].unknown = 2;
    play(d, &x);
}

void play_malformed(day *d)
{
    static const uint8_t octets[] = {
        41, 0, 0, 8,  0, 0, 0x40, 0x10,
        0,  0, 0, 16, 0, 0, 0x40, 0x11, 1, 2, 3, 4, // a COOKIE2 of 16 octets, of which 12 are there
    };
    exchange x = exchange_new(d, 7, on_the_bus(), 0);
    // The initiator sent a whole cookie. That none comes back is no reason to close where an error is told.
    x.sent = (sent){.cookie = {1, 2, 3, 4, 5, 6, 7, 8}, .cookie_octets = COOKIE_OCTETS};
    x.sent.request = message_of(UNMAVRETH_NOTIFY_PAYLOAD, octets, sizeof octets);
    x.number = UNMAVRETH_BAD_CHAIN_LENGTH;
    x.offset = 8;
    x.ordinal = 1;
    x.outcome = UNMAVRETH_OUTCOME_FAILED;
    play(d, &x);
}

void play_critical(day *d)
{
    static const uint8_t octets[] = {
        201, 0,    0, 8, 0, 0, 0x40, 0x10,
        0,   0x80, 0, 4, // a payload of type 201 with its critical bit set
    };
    exchange x = exchange_new(d, 8, on_the_bus(), 0);
    x.sent.request = message_of(UNMAVRETH_NOTIFY_PAYLOAD, octets, sizeof octets);
    x.number = UNMAVRETH_UNKNOWN_CRITICAL;
    x.offset = 8;
    x.ordinal = 1;
    x.outcome = UNMAVRETH_OUTCOME_FAILED;
    play(d, &x);
}

void play_policy(day *d)
{
    unmavreth_pair packet = pair_of(CAFE, IKE_PORT, GATEWAY, IKE_PORT);
    unmavreth_ask ask = {.update = true, .nat_source = true, .nat_destination = true};
    static const unmavreth_addresses_list none;
    exchange x = exchange_new(d, 9, packet, 4);
    x.sent = initiator_write(ask, packet, &none, true, x.id);
    x.number = UNMAVRETH_NOT_ACCEPTABLE;
    x.outcome = UNMAVRETH_OUTCOME_UNACCEPTABLE;
    x.after.ike.records[OUR_PLACE].update_mark = mark_of(x.id);
    play(d, &x);
}
