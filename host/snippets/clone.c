#include <unmavreth_host.h>

#include "ike.h"

// A CREATE_CHILD_SA request that rekeys the IKE SA came, and is authenticated and decrypted, and `new_spi` was drawn
// for the new IKE SA: opens the record of the clone if it is to be one. With 0 the host goes on with the key exchange,
// and leaves the old IKE SA as it is; with 40 and 44 the request is a plain rekey (rekey.c); with 4 there is no record
// to clone; with 11 the host draws another SPI, and calls again. A refusal that has a response is answered here.
uint8_t mobike_clone(unmavreth_gateway *gateway, const struct ike_sa *sa, const struct ike_request *came,
                     uint64_t new_spi)
{
    unmavreth_clone_request request = {.spi = sa->own_spi, .new_spi = new_spi, .first = came->first,
                                       .body = {came->payloads, came->octets}, .operator_id = sa->operator_id};
    unmavreth_response response;
    unmavreth_clone_reply reply = unmavreth_gateway_clone(gateway, &request, &response);
    if (reply.number != UNMAVRETH_DONE && reply.length != 0)
        ike_respond(sa, came->id, reply.first, response.octets, reply.length);
    return reply.number;
}
