#include <unmavreth_host.h>

#include "ike.h"

// Hands over the response to a check, and moves the SAs of the kernel whose records it moved.
unmavreth_assessment mobike_move(unmavreth_gateway *gateway, const unmavreth_check_response *response)
{
    unmavreth_ipsec before[UNMAVRETH_IPSEC_PLACES];
    memcpy(before, gateway->ipsec, sizeof before);
    unmavreth_assessment assessment = unmavreth_gateway_check(gateway, response);
    for (size_t at = unmavreth_next_moved(before, gateway, 0); at < UNMAVRETH_IPSEC_PLACES;
         at = unmavreth_next_moved(before, gateway, at + 1))
        ike_move_child(gateway->ipsec[at].spi, &before[at].pair, &gateway->ipsec[at].pair);
    return assessment;
}
