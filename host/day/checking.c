// The gateway checks that our initiator can be reached where it moved: once it can, once its update is overtaken by
// another, and once somebody else answers.
#include "address.h"
#include "records.h"
#include "routability.h"
#include "scenes.h"

#define FOURTH_SPI UINT64_C(0x0d06000000000004)
#define FOURTH_IPSEC UINT32_C(0xc1a50005)
enum { FOURTH_PLACE = 1 };

static const unmavreth_addresses_list NO_ADDRESSES;
static const unmavreth_ask UPDATE = {.update = true};

// The response to a check of our initiator's moves the IPsec records to where the IKE record is.
static void accept(day *d, const own_check *check, const message *request)
{
    checking c = checking_new(d, check, initiator_answer(request));
    accept_expected(&c.after, OUR_PLACE);
    play_response(d, &c);
}

void play_check(day *d)
{
    message request = send_check(d, &d->under_way);
    accept(d, &d->under_way, &request);
}

// An update of our initiator's from this pair is applied, and asks for the check that is given.
static own_check move_to(day *d, uint32_t id, unmavreth_pair packet)
{
    exchange x = exchange_new(d, id, packet, 2);
    x.sent = initiator_write(UPDATE, packet, &NO_ADDRESSES, true, id);
    expect_applied(&x, OUR_PLACE);
    play(d, &x);
    return x.check;
}

void play_overtaken(day *d)
{
    own_check first = move_to(d, 11, pair_of(HOTEL_NAT, HOTEL_NAT_PORT, GATEWAY, IKE_PORT));
    message to_hotel = send_check(d, &first);
    own_check second = move_to(d, 12, pair_of(TRAIN, IKE_PORT, GATEWAY, IKE_PORT));
    checking late = checking_new(d, &first, initiator_answer(&to_hotel));
    late.number = UNMAVRETH_CHECK_NOT_PENDING;
    late.outcome = UNMAVRETH_OUTCOME_NONE;
    play_response(d, &late);
    message to_train = send_check(d, &second);
    accept(d, &second, &to_train);
}

void play_forged(day *d)
{
    static const uint8_t guess[COOKIE_OCTETS] = {1, 2, 3, 4, 5, 6, 7, 8};
    tables before = d->gateway.tables;
    unmavreth_opening fourth = {
        .spi = FOURTH_SPI,
        .agreed = {.mobike = true},
        .pair = pair_of(SCHOOL_NAT, OUR_SCHOOL_PORT, GATEWAY, IKE_PORT),
        .child = FOURTH_IPSEC,
    };
    open_both(d, &fourth, UNMAVRETH_DONE);
    exchange x = exchange_new(d, 2, pair_of(TRAIN, IKE_PORT, GATEWAY, IKE_PORT), 1);
    x.spi = FOURTH_SPI;
    x.check.id = 0;
    x.sent = initiator_write(UPDATE, x.packet, &NO_ADDRESSES, false, x.id);
    expect_applied(&x, FOURTH_PLACE);
    play(d, &x);
    send_check(d, &x.check);
    checking forged = checking_new(d, &x.check, message_with_cookie(guess, sizeof guess));
    forged.spi = FOURTH_SPI;
    forged.outcome = UNMAVRETH_OUTCOME_CLOSE;
    forged.after = before; // the places of both records are free again
    play_response(d, &forged);
    add_in_use(d);
}
