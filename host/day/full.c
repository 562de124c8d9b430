// An opening that is refused opens neither of its records, so that nothing of it is in the way of the next.
#include <inttypes.h>

#include "address.h"
#include "out.h"
#include "records.h"
#include "scenes.h"

#define THIRD_IPSEC UINT32_C(0xc1a50004)
#define FURTHER_IPSEC UINT32_C(0xc1a60000) // those that fill the share follow it

// Opens IPsec records of the neighbour until the operator has its share, its first one among them.
static void fill_ipsec(day *d)
{
    unsigned opened = 0;
    for (uint32_t i = 1; i < UNMAVRETH_IPSEC_SHARE; i++)
        if (gateway_open_ipsec(&d->gateway, FURTHER_IPSEC + i, NEIGHBOUR_SPI) == UNMAVRETH_DONE)
            opened++;
    out("  Open IPsec records of %016" PRIx64 " up to the operator's share: %u opened\n", NEIGHBOUR_SPI, opened);
    check_number(&d->checks, "how many IPsec records were opened", opened, UNMAVRETH_IPSEC_SHARE - 1);
}

void play_full(day *d)
{
    unmavreth_opening third = {
        .spi = THIRD_SPI,
        .agreed = {.mobike = true},
        .pair = pair_of(BUS, IKE_PORT, GATEWAY, IKE_PORT),
        .child = NEIGHBOUR_IPSEC,
    };
    open_neither(d, &third, UNMAVRETH_SPI_IN_USE);
    third.child = THIRD_IPSEC;
    fill_ipsec(d);
    open_neither(d, &third, UNMAVRETH_OPERATOR_AT_SHARE);
    close_ike(d, NEIGHBOUR_SPI);
    tables expected = {0};
    open_expected(&expected, 0, 0, &third);
    open_both(d, &third, UNMAVRETH_DONE);
    check_holds(&d->checks, "a field of the tables differs", same_tables(&expected, &d->gateway.tables));
    add_in_use(d);
}
