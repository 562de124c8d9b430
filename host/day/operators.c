// Two operators on one gateway: each finds its own records alone, and has its own policy and its share of the places.
#include <inttypes.h>

#include "address.h"
#include "cloning.h"
#include "out.h"
#include "policies.h"
#include "records.h"
#include "routability.h"
#include "scenes.h"
#include "unmavreth_words.h"

#define SIXTH_SPI UINT64_C(0x0fab1e0000000009)
#define SIXTH_CLONE_SPI UINT64_C(0x0fab1e000000000a)
#define SIXTH_IPSEC UINT32_C(0xc1a50008)
#define SHARE_SPI UINT64_C(0x0fab1e0000000100) // those that fill the places follow it, with IPsec records likewise
#define SHARE_IPSEC UINT32_C(0xc1a70000)
enum { A = UNMAVRETH_OPERATOR_A, B = UNMAVRETH_OPERATOR_B };
enum { SIXTH_PLACE = 1, SIXTH_CLONE_PLACE = 5, SIXTH_IPSEC_PLACE = 1, REKEY_WITH_CLONE = 4 };

static const unmavreth_addresses_list NO_ADDRESSES;

static unmavreth_pair at(const char *source)
{
    return pair_of(source, IKE_PORT, GATEWAY, IKE_PORT);
}

static const char *name_of(uint8_t operator_id)
{
    return operator_id == A ? "A" : "B";
}

// B sets its policy; A's stays as it was, so that each accepts what the other does not.
static void set_other_policy(day *d)
{
    unmavreth_rules rules = {0};
    rules.rules[0] = rule_of("198.51.100.128", 25, GATEWAY, 32);
    d->gateway.operator_id = B;
    set_policy(d, "operator B's policy", 1, &rules);
    for (uint8_t asked = A; asked <= B; asked++) {
        d->gateway.operator_id = asked;
        out("  Is it acceptable to operator %s?\n", name_of(asked));
        ask_policy(d, "bus", at(BUS), asked == A);
        ask_policy(d, "cafe", at(CAFE), asked == B);
    }
}

static void open_sixth(day *d)
{
    unmavreth_opening sixth = {
        .spi = THIRD_SPI,
        .agreed = {.mobike = true, .cloning = true, .operator_id = B, .peer = FIFTH_PEER},
        .pair = at(WIFI),
        .child = SIXTH_IPSEC,
    };
    open_neither(d, &sixth, UNMAVRETH_SPI_IN_USE);
    sixth.spi = SIXTH_SPI;
    tables expected = d->gateway.tables;
    open_both(d, &sixth, UNMAVRETH_DONE);
    open_expected(&expected, SIXTH_PLACE, SIXTH_IPSEC_PLACE, &sixth);
    check_holds(&d->checks, "a field of the tables differs", same_tables(&expected, &d->gateway.tables));
}

static void finds_none(day *d, const char *call, uint8_t number)
{
    out("    %-26s answer %u: %s\n", call, number, unmavreth_number_words(number));
    check_number(&d->checks, call, number, UNMAVRETH_NO_SUCH_RECORD);
}

// The update that both operators' calls have.
static exchange update_from_cafe(const day *d)
{
    exchange x = exchange_new(d, 2, at(CAFE), 1);
    x.spi = SIXTH_SPI;
    x.check.id = 0;
    x.sent = initiator_write((unmavreth_ask){.update = true}, x.packet, &NO_ADDRESSES, false, x.id);
    return x;
}

// A's calls on what is B's.
static void call_for_the_other(day *d)
{
    const tables before = d->gateway.tables;
    const exchange x = update_from_cafe(d);
    message response;
    bool kept;
    d->gateway.operator_id = A;
    out("  Operator A's calls on these two records:\n");
    unmavreth_reply reply =
        gateway_answer(&d->gateway, x.spi, x.id, x.packet, &x.sent.request, &x.check, &response, &kept);
    finds_none(d, "the update", reply.number);
    check_holds(&d->checks, "a response was written", kept && reply.length == 0);
    finds_none(d, "a further IPsec record", gateway_open_ipsec(&d->gateway, SHARE_IPSEC, SIXTH_SPI));
    finds_none(d, "the deletion mark", gateway_mark_deletion(&d->gateway, SIXTH_SPI));
    finds_none(d, "closing the IPsec record", gateway_close_ipsec(&d->gateway, SIXTH_IPSEC));
    finds_none(d, "closing the IKE record", gateway_close_ike(&d->gateway, SIXTH_SPI));
    bool same = same_tables(&before, &d->gateway.tables);
    out("    %s\n", same ? "no field of any place changed" : "a field of some place changed");
    check_holds(&d->checks, "a field of the tables differs", same);
}

// B's own: an update, its check, and a clone.
static void call_for_its_own(day *d)
{
    exchange x = update_from_cafe(d);
    d->gateway.operator_id = B;
    out("  Operator B's calls on them:\n");
    expect_applied(&x, SIXTH_PLACE);
    play(d, &x);
    message request = send_check(d, &x.check);
    checking c = checking_new(d, &x.check, initiator_answer(&request));
    c.spi = SIXTH_SPI;
    accept_expected(&c.after, SIXTH_PLACE);
    play_response(d, &c);
    cloning clone = cloning_done(d, SIXTH_PLACE, SIXTH_CLONE_PLACE, SIXTH_CLONE_SPI);
    if (play_cloning(d, &clone) == UNMAVRETH_DONE)
        add_outcome(d, "cloned: 1");
}

void play_operators(day *d)
{
    set_other_policy(d);
    open_sixth(d);
    call_for_the_other(d);
    call_for_its_own(d);
    d->gateway.operator_id = A;
    add_in_use(d);
}

// Opens records of an operator until one is refused, with SPIs behind this many; how many were opened.
static unsigned open_until_refused(day *d, uint8_t operator_id, unsigned behind, unsigned expected, uint8_t refusal)
{
    unmavreth_opening one = {.agreed = {.operator_id = operator_id}, .pair = at(WIFI)};
    unsigned opened = 0;
    uint8_t number;
    do {
        one.spi = SHARE_SPI + behind + opened;
        one.child = SHARE_IPSEC + behind + opened;
        number = gateway_open(&d->gateway, &one);
    } while (number == UNMAVRETH_DONE && ++opened < UNMAVRETH_IKE_PLACES);
    out("  Operator %s opens IKE records: %u opened, then\n    answer %u: %s\n", name_of(operator_id), opened, number,
        unmavreth_number_words(number));
    check_number(&d->checks, "how many IKE records were opened", opened, expected);
    check_number(&d->checks, "the refusal", number, refusal);
    add_outcome(d, "%s: %u opened, then %u", name_of(operator_id), opened, number);
    return opened;
}

static void refuse_clone(day *d, uint8_t operator_id, uint64_t spi, uint8_t number, uint16_t notify)
{
    cloning c = cloning_refused(d, spi, SIXTH_CLONE_SPI + 1, number, notify);
    c.payloads = REKEY_WITH_CLONE;
    d->gateway.operator_id = operator_id;
    add_outcome(d, "clone refused, %u", play_cloning(d, &c));
}

// Closes those behind this many again.
static void close_again(day *d, uint8_t operator_id, unsigned behind, unsigned opened)
{
    unsigned closed = 0;
    d->gateway.operator_id = operator_id;
    while (closed < opened && gateway_close_ike(&d->gateway, SHARE_SPI + behind + closed) == UNMAVRETH_DONE)
        closed++;
    out("  Operator %s closes them: %u closed\n", name_of(operator_id), closed);
    check_number(&d->checks, "how many IKE records were closed", closed, opened);
}

void play_share(day *d)
{
    const tables before = d->gateway.tables;
    // Of the 32 places B has two before, the sixth initiator's and its clone's, and A four.
    const unsigned of_b = open_until_refused(d, B, 0, UNMAVRETH_IKE_SHARE - 2, UNMAVRETH_OPERATOR_AT_SHARE);
    refuse_clone(d, B, SIXTH_SPI, UNMAVRETH_OPERATOR_AT_SHARE, UNMAVRETH_NO_ADDITIONAL_SAS);
    const unsigned of_a =
        open_until_refused(d, A, of_b, UNMAVRETH_IKE_PLACES - UNMAVRETH_IKE_SHARE - 4, UNMAVRETH_FULL);
    refuse_clone(d, A, CELLULAR_SPI, UNMAVRETH_CANNOT_CLONE_NOW, UNMAVRETH_TEMPORARY_FAILURE);
    close_again(d, B, 0, of_b);
    close_again(d, A, of_b, of_a);
    check_holds(&d->checks, "a field of the tables differs", same_tables(&before, &d->gateway.tables));
    add_in_use(d);
}
