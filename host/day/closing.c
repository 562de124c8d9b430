// The gateway closes one IPsec record, and an IKE record with what it still owns.
#include "records.h"
#include "scenes.h"

static const unmavreth_ike FREE_IKE;
static const unmavreth_ipsec FREE_IPSEC;

static void check_tables(day *d, const tables *expected)
{
    check_holds(&d->checks, "a field of the tables differs", same_tables(expected, &d->gateway.tables));
}

void play_close(day *d)
{
    tables expected = d->gateway.tables;
    close_ipsec(d, 1);
    expected.ipsec[1] = FREE_IPSEC;
    check_tables(d, &expected);
    close_ike(d, OUR_SPI);
    expected.ike.records[OUR_PLACE] = FREE_IKE;
    expected.ipsec[0] = FREE_IPSEC;
    check_tables(d, &expected);
    add_in_use(d);
}
