// The gateway's calls of the library: one function each, which also puts the call into the gateway's trace.
#include "gateway.h"

#include <string.h>

#include "nat.h"

enum { FILL = 0xee };

gateway gateway_new(void)
{
    gateway g = {0};
    made_up_nat_value(g.nat_source, 0x10);
    made_up_nat_value(g.nat_destination, 0x30);
    return g;
}

uint8_t gateway_open(gateway *g, const unmavreth_opening *opening)
{
    trace_open_both(&g->trace, opening);
    return unmavreth_open(&g->tables.ike, g->tables.ipsec, UNMAVRETH_IPSEC_PLACES, *opening);
}

uint8_t gateway_open_ipsec(gateway *g, uint32_t spi, uint64_t owner)
{
    trace_add_ipsec(&g->trace, spi, owner, g->operator_id);
    return unmavreth_open_ipsec(&g->tables.ike, g->tables.ipsec, UNMAVRETH_IPSEC_PLACES, spi, owner, g->operator_id);
}

uint8_t gateway_close_ike(gateway *g, uint64_t spi)
{
    trace_close_ike(&g->trace, spi, g->operator_id);
    return unmavreth_close_ike(&g->tables.ike, g->tables.ipsec, UNMAVRETH_IPSEC_PLACES, spi, g->operator_id);
}

uint8_t gateway_close_ipsec(gateway *g, uint32_t spi)
{
    trace_close_ipsec(&g->trace, spi, g->operator_id);
    return unmavreth_close_ipsec(&g->tables.ike, g->tables.ipsec, UNMAVRETH_IPSEC_PLACES, spi, g->operator_id);
}

uint8_t gateway_mark_deletion(gateway *g, uint64_t spi)
{
    trace_mark_deletion(&g->trace, spi, g->operator_id);
    return unmavreth_mark_deletion(&g->tables.ike, spi, g->operator_id);
}

uint8_t gateway_set_policy(gateway *g, uint16_t count, const unmavreth_rules *rules)
{
    trace_policy(&g->trace, count, rules, g->operator_id);
    return unmavreth_set_policy(&g->policies, count, rules, g->operator_id);
}

bool gateway_accepts(const gateway *g, unmavreth_pair pair)
{
    return unmavreth_acceptable(&g->policies, pair, g->operator_id);
}

static bool is_filled(const uint8_t *octets, size_t length)
{
    for (size_t i = 0; i < length; i++)
        if (octets[i] != FILL)
            return false;
    return true;
}

unmavreth_reply gateway_answer(gateway *g, uint64_t spi, uint32_t id, unmavreth_pair packet, const message *request,
                               const own_check *check, message *response, bool *kept)
{
    trace_request(&g->trace, spi, id, &packet, g->nat_source, g->nat_destination, request, check->cookie,
                  sizeof check->cookie, check->id, g->operator_id);
    memset(response->octets, FILL, sizeof response->octets);
    unmavreth_reply reply = unmavreth_handle(
        &g->tables.ike, g->tables.ipsec, UNMAVRETH_IPSEC_PLACES, &g->policies, spi, id, packet, g->nat_source,
        sizeof g->nat_source, g->nat_destination, sizeof g->nat_destination, check->cookie, sizeof check->cookie,
        check->id, request->first, request->octets, request->length, response->octets, UNMAVRETH_RESPONSE_ROOM,
        g->operator_id);
    response->first = reply.first;
    response->length = reply.length;
    *kept = is_filled(response->octets + reply.length, sizeof response->octets - reply.length);
    return reply;
}

message gateway_write_check(const own_check *check)
{
    return message_with_cookie(check->cookie, sizeof check->cookie);
}

unmavreth_assessment gateway_end_check(gateway *g, uint64_t spi, uint32_t id, const message *response)
{
    trace_check_response(&g->trace, spi, id, response, g->operator_id);
    return unmavreth_check(&g->tables.ike, g->tables.ipsec, UNMAVRETH_IPSEC_PLACES, spi, id, response->first,
                           response->octets, response->length, g->operator_id);
}

unmavreth_clone_reply gateway_clone(gateway *g, uint64_t spi, uint64_t new_spi, const message *request,
                                    message *response, bool *kept)
{
    trace_clone(&g->trace, spi, new_spi, request, g->operator_id);
    memset(response->octets, FILL, sizeof response->octets);
    unmavreth_clone_reply reply =
        unmavreth_clone(&g->tables.ike, spi, new_spi, request->first, request->octets, request->length,
                        response->octets, UNMAVRETH_RESPONSE_ROOM, g->operator_id);
    response->first = reply.first;
    response->length = reply.length;
    *kept = is_filled(response->octets + reply.length, sizeof response->octets - reply.length);
    return reply;
}
