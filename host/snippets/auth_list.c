#include <unmavreth_host.h>

// IKE_AUTH brought additional addresses, in the message with this ID, and the record is open: keeps them in it. They
// are written as a request of their own, which is handled as if it had come then. Its response is empty, and not sent.
uint8_t mobike_auth_list(unmavreth_gateway *gateway, uint64_t spi, uint32_t id, uint8_t first, unmavreth_part body)
{
    const unmavreth_reading reading = unmavreth_read_part(first, body);
    if (reading.number != UNMAVRETH_DONE || reading.seen.list.count == 0)
        return reading.number;
    unmavreth_draft draft = {.addresses = unmavreth_addresses_part(body, &reading.seen)};
    draft.ask.count = reading.seen.list.count < UNMAVRETH_ADDRESSES_MOST ? reading.seen.list.count
                                                                         : (uint16_t)UNMAVRETH_ADDRESSES_MOST;
    unmavreth_message message;
    const unmavreth_written written = unmavreth_write_draft(&draft, &message);
    if (written.number != UNMAVRETH_DONE)
        return written.number;
    const unmavreth_ike *record = unmavreth_find_ike(gateway, spi);
    if (record == NULL)
        return UNMAVRETH_NO_SUCH_RECORD;
    const uint8_t none[UNMAVRETH_COOKIE_LEAST] = {0}; // any will do: there is no update, and so no check
    unmavreth_request request = {.spi = spi, .id = id, .pair = record->pair, .first = written.first,
                                 .body = {message.octets, written.length}, .cookie = {none, sizeof none},
                                 .operator_id = record->agreed.operator_id};
    unmavreth_response response;
    return unmavreth_gateway_handle(gateway, &request, &response).number;
}
