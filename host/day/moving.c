// Our initiator on the move: its additional addresses, an update, a late update, and NATs on the way. The checks of
// where it is are in checking.c.
#include "address.h"
#include "scenes.h"

static const unmavreth_addresses_list NO_ADDRESSES;
static const unmavreth_ask UPDATE_WITH_NATS = {.update = true, .nat_source = true, .nat_destination = true};

void play_addresses(day *d)
{
    unmavreth_addresses_list addresses = {.list = {address(BUS), address(BUS_IP6)}};
    unmavreth_pair packet = pair_of(SCHOOL_NAT, OUR_SCHOOL_PORT, GATEWAY, IKE_PORT);
    exchange x = exchange_new(d, 2, packet, 2);
    x.sent = initiator_write((unmavreth_ask){.count = 2}, packet, &addresses, false, x.id);
    x.list = UNMAVRETH_LIST_REPLACED;
    unmavreth_ike *ours = &x.after.ike.records[OUR_PLACE];
    ours->list_mark = mark_of(x.id);
    ours->count = 2;
    ours->addresses[0] = address(BUS);
    ours->addresses[1] = address(BUS_IP6);
    play(d, &x);
}

void play_move(day *d)
{
    unmavreth_pair corridor = pair_of(SCHOOL_NAT, CORRIDOR_PORT, GATEWAY, IKE_PORT);
    d->held_up = initiator_write(UPDATE_WITH_NATS, corridor, &NO_ADDRESSES, true, 3);
    unmavreth_pair packet = pair_of(BUS, IKE_PORT, GATEWAY, IKE_PORT);
    exchange x = exchange_new(d, 4, packet, 4);
    x.sent = initiator_write(UPDATE_WITH_NATS, packet, &NO_ADDRESSES, true, x.id);
    expect_applied(&x, OUR_PLACE);
    play(d, &x);
    d->under_way = x.check;
}

void play_late(day *d)
{
    exchange x = exchange_new(d, 3, pair_of(SCHOOL_NAT, CORRIDOR_PORT, GATEWAY, IKE_PORT), 4);
    x.sent = d->held_up;
    x.update = UNMAVRETH_UPDATE_STALE;
    play(d, &x);
}

void play_nat(day *d)
{
    unmavreth_pair claimed = pair_of(BUS, IKE_PORT, GATEWAY, IKE_PORT);
    exchange x = exchange_new(d, 5, pair_of(BUS_NAT, BUS_NAT_PORT, GATEWAY, IKE_PORT), 3);
    unmavreth_ask ask = {.update = true, .no_nats = true};
    x.sent = initiator_write(ask, claimed, &NO_ADDRESSES, true, x.id);
    x.number = UNMAVRETH_ADDRESSES_ALTERED;
    x.outcome = UNMAVRETH_OUTCOME_NAT_SEEN;
    x.after.ike.records[OUR_PLACE].update_mark = mark_of(x.id);
    play(d, &x);
}

void play_keepalive(day *d)
{
    unmavreth_pair packet = pair_of(HOTEL_NAT, HOTEL_NAT_PORT, GATEWAY, IKE_PORT);
    unmavreth_ask ask = {.nat_source = true, .nat_destination = true};
    exchange x = exchange_new(d, 10, packet, 2);
    x.sent = initiator_write(ask, packet, &NO_ADDRESSES, false, x.id);
    play(d, &x);
}
