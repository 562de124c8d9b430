#include <unmavreth_host.h>
#include <unmavreth_sockaddr.h>

#include "ike.h" // the host's own: struct ike_sa, struct ike_request, struct ike_response, ike_respond(), ike_ask()

static unmavreth_gateway gateway; // all zeros: no record, and no rule yet

// IKE_AUTH is done: opens the records of the IKE SA and of its first child SA, both or neither.
uint8_t mobike_open(const struct ike_sa *sa)
{
    unmavreth_opening opening = {.spi = sa->own_spi,
                                 .agreed = {.mobike = sa->mobike, .cloning = sa->cloning,
                                            .operator_id = sa->operator_id, .peer = sa->client},
                                 .pair = unmavreth_pair_of(sa->peer, sa->own), .child = sa->child_spi};
    return unmavreth_gateway_open(&gateway, &opening);
}

// An INFORMATIONAL request came, and is authenticated and decrypted: handles it, sends the response, and if the peer
// moved, a request that checks whether it can be reached there.
uint8_t mobike_request(const struct ike_sa *sa, const struct ike_request *came)
{
    unmavreth_request request = {.spi = sa->own_spi, .id = came->id, .pair = unmavreth_pair_of(came->from, came->to),
                                 .nat_source = came->nat_source, .nat_destination = came->nat_destination,
                                 .first = came->first, .body = {came->payloads, came->octets},
                                 .cookie = {came->fresh, sizeof came->fresh}, .check_id = sa->next_id,
                                 .operator_id = sa->operator_id};
    unmavreth_response response;
    unmavreth_reply reply = unmavreth_gateway_handle(&gateway, &request, &response);
    ike_respond(sa, came->id, reply.first, response.octets, reply.length); // empty with 1 to 5; unmavreth(3) says more
    unmavreth_message check;
    unmavreth_written written = unmavreth_write_check(&reply, &request, &check);
    if (written.length != 0)
        ike_ask(sa, request.check_id, written.first, check.octets, written.length);
    return reply.number;
}

// The response to that check came: the IPsec records move, or the IKE SA is closed, for another cookie came back.
uint8_t mobike_checked(const struct ike_sa *sa, const struct ike_response *came)
{
    unmavreth_check_response response = {.spi = sa->own_spi, .id = came->id, .first = came->first,
                                         .body = {came->payloads, came->octets}, .operator_id = sa->operator_id};
    unmavreth_assessment assessment = unmavreth_gateway_check(&gateway, &response);
    if (assessment.outcome == UNMAVRETH_OUTCOME_CLOSE)
        ike_close(sa);
    return assessment.number;
}
