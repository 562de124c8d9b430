// Plays a request to clone: the initiator's rekey is lent to the gateway, and the answer is printed and checked.
#include "cloning.h"

#include <inttypes.h>
#include <string.h>

#include "out.h"
#include "unmavreth_words.h"

enum { NOTIFY_OCTETS = 8, REKEY_PAYLOADS = 3 };

message rekey_message(bool clone)
{
    // SA, nonce and key exchange: what is in them is the host's to read, and the library skips them.
    static const uint8_t rekey[] = {40, 0, 0, 8,  0xa0, 0xa1, 0xa2, 0xa3, 34, 0, 0, 8,
                                    0xb0, 0xb1, 0xb2, 0xb3, 0,  0, 0, 8,  0xd0, 0xd1, 0xd2, 0xd3};
    static const unmavreth_pair no_pair;
    static const unmavreth_addresses_list no_addresses;
    message m = message_of(UNMAVRETH_FIRST_KNOWN_PAYLOAD, rekey, sizeof rekey);
    if (!clone)
        return m;
    m = initiator_write((unmavreth_ask){.clone = true}, no_pair, &no_addresses, false, 0).request;
    m.octets[0] = UNMAVRETH_FIRST_KNOWN_PAYLOAD; // the host's own payloads follow
    memcpy(m.octets + m.length, rekey, sizeof rekey);
    m.length += sizeof rekey;
    return m;
}

cloning cloning_refused(const day *d, uint64_t spi, uint64_t new_spi, uint8_t number, uint16_t notify)
{
    cloning c = {.spi = spi, .new_spi = new_spi, .number = number, .notify = notify, .after = d->gateway.tables};
    c.request = rekey_message(true);
    return c;
}

cloning cloning_done(const day *d, size_t original, size_t place, uint64_t new_spi)
{
    const unmavreth_ike *of = &d->gateway.tables.ike.records[original];
    cloning c = cloning_refused(d, of->spi, new_spi, UNMAVRETH_DONE, UNMAVRETH_CLONE_IKE_SA);
    c.payloads = 1 + REKEY_PAYLOADS;
    c.after.ike.records[place] = (unmavreth_ike){.spi = new_spi, .agreed = of->agreed, .pair = of->pair};
    return c;
}

// Whether the response is a notification of this type and nothing else, or nothing for type 0.
static bool is_notify(const message *m, uint16_t type)
{
    const uint8_t octets[NOTIFY_OCTETS] = {0, 0, 0, NOTIFY_OCTETS, 0, 0, (uint8_t)(type >> 8), (uint8_t)type};
    if (type == 0)
        return m->first == 0 && m->length == 0;
    return m->first == UNMAVRETH_NOTIFY_PAYLOAD && m->length == sizeof octets &&
           memcmp(m->octets, octets, sizeof octets) == 0;
}

static void print_clone_reply(const unmavreth_clone_reply *r)
{
    out("  Gateway answers ");
    out_wrapped(r->number == UNMAVRETH_DONE ? GOOD : CHANGED, 18, 4, "%u: %s", r->number,
                unmavreth_number_words(r->number));
    if (r->number == UNMAVRETH_BAD_DATA_SIZE)
        out("    at offset %u, payload %u from 0\n", r->offset, r->ordinal);
    out("    payloads %u\n", r->payloads);
}

uint8_t play_cloning(day *d, const cloning *c)
{
    message response;
    bool kept;
    out("  Rekey of IKE SA %016" PRIx64 ", new SPI %016" PRIx64 "\n", c->spi, c->new_spi);
    print_described("Request", &c->request);
    unmavreth_clone_reply reply = gateway_clone(&d->gateway, c->spi, c->new_spi, &c->request, &response, &kept);
    print_clone_reply(&reply);
    print_described("Response", &response);
    check_number(&d->checks, "the answer", reply.number, c->number);
    check_number(&d->checks, "the count of payloads", reply.payloads, c->payloads);
    check_number(&d->checks, "the offset", reply.offset, c->offset);
    check_number(&d->checks, "the ordinal", reply.ordinal, c->ordinal);
    check_holds(&d->checks, "the response is another one", is_notify(&response, c->notify));
    check_holds(&d->checks, "the octets past the response changed", kept);
    check_holds(&d->checks, "a field of the tables differs", same_tables(&c->after, &d->gateway.tables));
    return reply.number;
}
