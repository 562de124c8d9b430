#include <unmavreth_host.h>

// The IKE SA was rekeyed, and the new one takes over its child SAs (RFC 7296, 2.8): closes the old record, and opens
// the new one with the same pair and the same IPsec records. Of the old one's requests none is under way, nor a check:
// the IPsec records take the pair that the IKE record has, checked or not.
uint8_t mobike_rekey(unmavreth_gateway *gateway, uint64_t old_spi, uint64_t new_spi)
{
    const unmavreth_ike *record = unmavreth_find_ike(gateway, old_spi);
    if (record == NULL)
        return UNMAVRETH_NO_SUCH_RECORD;
    if (new_spi == 0 || unmavreth_find_ike(gateway, new_spi) != NULL)
        return new_spi == 0 ? UNMAVRETH_BAD_ARGUMENT : UNMAVRETH_SPI_IN_USE;
    uint32_t children[UNMAVRETH_IPSEC_PLACES];
    size_t count = 0;
    for (size_t at = unmavreth_next_owned(gateway, old_spi, 0); at < UNMAVRETH_IPSEC_PLACES;
         at = unmavreth_next_owned(gateway, old_spi, at + 1))
        children[count++] = gateway->ipsec[at].spi;
    if (count == 0)
        return UNMAVRETH_NO_SUCH_RECORD; // an IKE record is opened with an IPsec record
    unmavreth_opening opening = {.spi = new_spi, .agreed = record->agreed, .pair = record->pair, .child = children[0]};
    const uint8_t operator_id = record->agreed.operator_id;
    uint8_t number = unmavreth_gateway_close_ike(gateway, old_spi, operator_id);
    if (number == UNMAVRETH_DONE)
        number = unmavreth_gateway_open(gateway, &opening);
    for (size_t i = 1; i < count && number == UNMAVRETH_DONE; i++)
        number = unmavreth_gateway_open_ipsec(gateway, children[i], new_spi, operator_id);
    return number;
}
