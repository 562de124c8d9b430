// The day's opening: the gateway sets its policy and opens the records of two initiators behind a school's NAT.
#include "address.h"
#include "out.h"
#include "policies.h"
#include "records.h"
#include "scenes.h"

enum { RULES = 3 };

static void set_our_policy(day *d)
{
    unmavreth_rules rules = {0};
    rules.rules[0] = rule_of("203.0.113.0", 24, GATEWAY, 32);
    rules.rules[1] = rule_of("198.51.100.0", 25, GATEWAY, 32);
    rules.rules[2] = rule_of("2001:db8:b05::", 48, "2001:db8::1", 128);
    set_policy(d, "the policy", RULES, &rules);
}

// What an initiator at the school is opened with.
static unmavreth_opening opening_at_school(uint64_t spi, uint16_t port, uint32_t child)
{
    return (unmavreth_opening){
        .spi = spi,
        .agreed = {.mobike = true},
        .pair = pair_of(SCHOOL_NAT, port, GATEWAY, IKE_PORT),
        .child = child,
    };
}

// Each record as it must stand once all are opened: at the lowest place that was free, with the pair of its initiator.
static tables opened(const unmavreth_opening *ours, const unmavreth_opening *neighbours)
{
    tables t = {0};
    open_expected(&t, OUR_PLACE, 0, ours);
    t.ipsec[1] = (unmavreth_ipsec){.spi = OUR_IPSEC_2, .owner = OUR_SPI, .pair = ours->pair};
    open_expected(&t, NEIGHBOUR_PLACE, 2, neighbours);
    return t;
}

void play_open(day *d)
{
    unmavreth_opening ours = opening_at_school(OUR_SPI, OUR_SCHOOL_PORT, OUR_IPSEC_1);
    unmavreth_opening neighbours = opening_at_school(NEIGHBOUR_SPI, NEIGHBOUR_PORT, NEIGHBOUR_IPSEC);
    tables expected = opened(&ours, &neighbours);
    set_our_policy(d);
    out("  Is it acceptable?\n");
    ask_policy(d, "school", ours.pair, true);
    ask_policy(d, "bus", pair_of(BUS, IKE_PORT, GATEWAY, IKE_PORT), true);
    ask_policy(d, "bus", pair_of(BUS_IP6, IKE_PORT, "2001:db8::1", IKE_PORT), true);
    ask_policy(d, "cafe", pair_of(CAFE, IKE_PORT, GATEWAY, IKE_PORT), false);
    open_both(d, &ours, UNMAVRETH_DONE);
    open_ipsec(d, OUR_IPSEC_2, OUR_SPI);
    open_both(d, &neighbours, UNMAVRETH_DONE);
    check_holds(&d->checks, "a field of the tables differs", same_tables(&expected, &d->gateway.tables));
    add_in_use(d);
}
